// Types that are left out.

package literals

type T []int

type Point struct{ x, y int }

type To *struct{ s string }

type ToNumber *struct{ int }

type Again ToNumber

var (
	t01 = [10]T{T{}, {}, 5: T{1, 2, 3}, 7: {1, 2, 3}}
	t02 = [10][10]T{{}, [10]T{{}}, {{1, 2, 3}}}
	t03 = [...]Point{{1, -3}, {0, 0}}
	t04 = [...]*Point{{1, -3}, {0, 0}}
	t05 = []To{{}, {"foo"}}
	t06 = []Again{{0}, {1}}
	t07 = map[To]Again{{}: {}}
	t08 = map[string]Point{"orig": {0, 0}}
	t09 = map[*Point]string{{0, 0}: "orig"}
	t10 = map[[2]Point][]Point{{}: {}, {{}}: {{}, Point{1, 2}}}
	t11 = []int{{}}                 // ERROR 14:E60
	t12 = []interface{}{{1}}        // ERROR 22:E60
	t13 = []Point{{1}}              // ERROR 16:E64
	t14 = []*Point{{x: 1, x: 2}}    // ERROR 17:E63
	t15 = [][]int{{"a"}}            // ERROR 17:E32
	t16 = [][2]int{{1, 2, 3}}       // ERROR 17:E43
	t17 = []**Point{{}}             // ERROR 18:E60
	t18 = []undefined{{1}}          // ERROR 10:E3
	p01 *Point = t04[0]
	p02  Point = t04[0]             // ERROR 15:E32
)
