// Values of constants: a divisor is zero exactly where the value is the one that is taken from it.

package operators

const (
	I   int    = 1
	I7  int    = 7
	I8  int8   = 1
	N8  int8   = -128
	P8  int8   = 127
	U1  uint8  = 1
	U8  uint8  = 200
	H8  uint8  = 100
	M8  uint8  = 255
	Z8  uint8  = 0
	C64 uint64 = 3
	Z64 uint64 = 0
	A1 = 1 / (15/4 - 3) // ERROR 7:E31
	A2 = 1 / (5/3 - 1) // ERROR 7:E31
	A3 = 1 / (-5/3 + 1) // ERROR 7:E31
	A4 = 1 / (5/-3 + 1) // ERROR 7:E31
	A5 = 1 / (-5%3 + 2) // ERROR 7:E31
	A6 = 1 / (5%-3 - 2) // ERROR 7:E31
	A7 = 1 / (1<<3 - 8) // ERROR 7:E31
	A8 = 1 / (1<<100 - 1267650600228229401496703205376) // ERROR 7:E31
	A9 = 1 / (1267650600228229401496703205376>>98 - 4) // ERROR 7:E31
	B1 = 1 / (-11>>2 + 3) // ERROR 7:E31
	B2 = 1 / (-1>>1 + 1) // ERROR 7:E31
	B3 = 1 / (11&3 - 3) // ERROR 7:E31
	B4 = 1 / (6|3 - 7) // ERROR 7:E31
	B5 = 1 / (6^3 - 5) // ERROR 7:E31
	B6 = 1 / (6&^3 - 4) // ERROR 7:E31
	B7 = 1 / (^1 + 2) // ERROR 7:E31
	B8 = 1 / ('w'+1 - 120) // ERROR 7:E31
	B9 = 1 / (1+'a' - 98) // ERROR 7:E31
	C1 = 1 / ('a'<<1 - 194) // ERROR 7:E31
	C2 = 1 / ('a'>>1 - 48) // ERROR 7:E31
	C3 = 1 / (1<<'a' - 158456325028528675187087900672) // ERROR 7:E31
	C4 = 1 / (-'a' + 97) // ERROR 7:E31
	C5 = 1 / (+'a' - 97) // ERROR 7:E31
	C6 = 1 / (^'a' + 98) // ERROR 7:E31
	C7 = 1 / (0x_1F - 31) // ERROR 7:E31
	C8 = 1 / (0b101 - 5) // ERROR 7:E31
	C9 = 1 / (017 - 15) // ERROR 7:E31
	D1 = 1 / (0o17 - 15) // ERROR 7:E31
	D2 = 1 / (1_000 - 1000) // ERROR 7:E31
	D3 = 1 / ('\n' - 10) // ERROR 7:E31
	D4 = 1 / ('\u65e5' - 26085) // ERROR 7:E31
	D5 = 1 / (U8 + 55 - 255) // ERROR 7:E31
	D6 = 1 / (100 + H8 - 200) // ERROR 7:E31
	D7 = 1 / (I8<<3 - 8) // ERROR 7:E31
	D8 = 1 / (I8<<C64 - 8) // ERROR 7:E31
	D9 = 1 / (U1<<7 - 128) // ERROR 7:E31
	E1 = 1 / (M8>>4 - 15) // ERROR 7:E31
	E2 = 1 / (N8>>100 + 1) // ERROR 7:E31
	E3 = 1 / (^U1 - 254) // ERROR 7:E31
	E4 = 1 / (^I8 + 2) // ERROR 7:E31
	E5 = 1 / (^Z64 - (1<<64 - 1)) // ERROR 7:E31
	E6 = 1 / (-Z8 - 0) // ERROR 7:E31
	E7 = 1 / (-P8 + 127) // ERROR 7:E31
	E8 = 1 / (I + 'a' - 98) // ERROR 7:E31
	E9 = 1 / (7 % I7 - 0) // ERROR 7:E31
)
