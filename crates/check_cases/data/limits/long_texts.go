// Not for go/types: long texts lie outside the profile.

package limits

const T4 = "0123456789abcdef"
const T5 = T4 + T4
const T6 = T5 + T5
const T7 = T6 + T6
const T8 = T7 + T7
const T9 = T8 + T8
const U0 = T9 + T9
const U1 = U0 + U0
const U2 = U1 + U1
const U3 = U2 + U2
const U4 = U3 + U3
const U5 = U4 + U4
const U6 = U5 + U5
const U7 = U6 + "a" // ERROR 12:outside-long-text
const U8 = U7 + "a"
const U9 = "a" + U5
