// Indexes, slices and assertions.

package selectors

type text string

type array [3]int

type table map[text]int

var (
	a  array
	pa *array
	s  []string
	x  text
	m  table
	u  uint8
	f  func()
	i  interface{}
	e  interface{ M() }
)

type T int

func (T) M()

type U int

func (*U) M()

func pair() (int, int)

const c = "abc"

var (
	i01        = a[0]
	i02        = a[3]        // ERROR 15:E43
	i03        = pa[2]
	i04        = pa[3]       // ERROR 15:E43
	i05        = s[100]
	i06        = s[-1]       // ERROR 15:E43
	i07        = c[2]
	i08        = c[3]        // ERROR 15:E43
	i09        = x[9]
	i10        = s[u]
	i11        = s['a']
	i12        = s["a"]      // ERROR 15:E42
	i13        = s[1<<63]    // ERROR 15:E42
	i14        = s[i]        // ERROR 15:E42
	i15        = f[0]        // ERROR 15:E41
	i16        = u[0]        // ERROR 15:E41
	i17        = m["a"]
	i18        = m[1]        // ERROR 17:E32
	i19        = s[nil]      // ERROR 17:E26
	i20        = s[pair()]   // ERROR 17:E25
	i21        = pair()[0]   // ERROR 15:E25
	i22 string = a[0]        // ERROR 15:E32
	i23, ok    = m["a"]
	i24, i25   = a[0]        // ERROR 2:E99
	i26        = (a)[undefined] // ERROR 19:E3
	i27        = (*pa)[1]
	i28        = 3[0]        // ERROR 15:E41
	i29        = array{1, 2}[2]
	i30        = array{1, 2}[3] // ERROR 15:E43
)

var (
	s01         = s[:]
	s02         = s[1:2:3]
	s03         = c[1:]
	s04         = c[1:2:3]   // ERROR 16:E44
	s05         = a[1:]
	s06         = pa[:3]
	s07         = pa[:4]     // ERROR 16:E43
	s08         = array{}[:] // ERROR 16:E44
	s09         = m[:]       // ERROR 16:E44
	s10         = s[2:1]     // ERROR 16:E45
	s11         = s[1:3:2]   // ERROR 16:E45
	s12         = c[4:]      // ERROR 16:E43
	s13         = c[3:]
	s14         = s[i:]      // ERROR 16:E42
	s15 []string = s[:1]
	s16 array    = a[:]      // ERROR 17:E32
	s17          = x[:1]
)

var (
	a01     = i.(int)
	a02, a3 = i.(string)
	a04     = u.(int)     // ERROR 12:E46
	a05     = e.(T)
	a06     = e.(U)       // ERROR 12:E47
	a07     = e.(*U)
	a08     = e.(error)
	a09     = i.(u)       // ERROR 15:E10
	a10     = i.(undefined) // ERROR 15:E3
	a11 int = i.(string)  // ERROR 12:E32
	a12     = nil.(int)   // ERROR 12:E26
)
