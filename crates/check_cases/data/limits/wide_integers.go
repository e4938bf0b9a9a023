// Wide integers.

package limits

const W = 1 << 126
const V = 1 << 127 // ERROR 11:outside-wide
const U = 1<<127 - 1 - 1<<126 // ERROR 11:outside-wide
