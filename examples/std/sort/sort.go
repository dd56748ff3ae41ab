package sort

type Interface interface {
	Swap(one, other int)
	Less(one, other int) bool
	Len() (count int)
}
