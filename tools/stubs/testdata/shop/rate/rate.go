// Package rate lies outside the profile; others import it all the same.
package rate

// Of is a share.
func Of(part, whole int) float64 { return float64(part) / float64(whole) }
