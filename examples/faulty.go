package recipe

var quota = map[string]int{
	"control": 08,
	"sample-017: capacity / 4,
}
