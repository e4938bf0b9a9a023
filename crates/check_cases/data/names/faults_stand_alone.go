// A fault is told once: what uses the faulty constant is silent.

package names

const A1 uint8 = 256 // ERROR 18:E32
const A2 = A1 + 1
const A3 = Nowhere // ERROR 12:E3
const A4 = A3 + 1
const A5 = 1
const A6 uint8 = A5 - 2 // ERROR 18:E32
const A7 = 1/0 + Nowhere // ERROR 12:E31 18:E3
const A8 = (1 + "a") << (2 + "b") // ERROR 13:E33 26:E33
