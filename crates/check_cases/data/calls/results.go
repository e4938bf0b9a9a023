// The results of a call as arguments.

package calls3

func split(string, int) (string, string)
func nothing()
func mixed() (int, string, bool)
func single() int

func takesTwo(a, b string) int
func takesThree(int, string, bool) int
func takesOne(string) int
func takesInt(int) int
func takesAny(...interface{}) int
func takesTexts(...string) int
func takesNone() int
func takesErrors(int, error, bool) int

type boxed struct{}

var (
	a1 = takesTwo(split("a", 1))
	a2 = takesOne(split("a", 1))     // ERROR 7:E51
	a3 = takesThree(mixed())
	a4 = takesThree(split("a", 1))   // ERROR 7:E51
	a5 = takesTwo(mixed())           // ERROR 7:E51
	a6 = takesErrors(mixed())        // ERROR 19:E32
	a7 = takesAny(mixed())
	a8 = takesTexts(split("a", 1))
	a9 = takesTexts(mixed())         // ERROR 18:E32
	b1 = takesTwo(split("a", 1), "b") // ERROR 16:E25
	b2 = takesNone(nothing())        // ERROR 7:E51
	b3 = takesAny(nothing())         // ERROR 7:E51
	b4 = takesInt(single())
	b5 = takesOne(single())          // ERROR 16:E32
	b6 = takesTwo((split("a", 1)))
	b7 = takesTexts(split("a", 1)...) // ERROR 18:E25
	b8 = string(split("a", 1))       // ERROR 14:E25
	b9 = string(nothing())           // ERROR 14:E24
	c1 = len(split("a", 1))          // ERROR 11:E25
	c2 = len(nothing())              // ERROR 11:E24
	c3 = split("a", 1)               // ERROR 7:E25
	c4 = takesTwo(undefined())       // ERROR 16:E3
	c5 = takesTwo(undefined)         // ERROR 7:E51 16:E3
	c6 = split("a", 1)(2)            // ERROR 7:E25
	c7 = takesInt(split("a", 1) + 1) // ERROR 16:E25
	c8, c9 = split("a", 1)
	d1, d2, d3 = mixed()
)
