// Lane 3: two pooled samples and a control.
package recipe

const capacity = 1 << 20

var quota = map[string]int{
	"sample-017": capacity / 4, /* half depth */
	"sample-018": 0x40000,
	"control":    1_000,
}

// The control's part of the lane in per cent: 2.5, since a number with a point is decimal.
const share = 02.50
