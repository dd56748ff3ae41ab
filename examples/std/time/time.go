package time

const (
	Second = 1000000000 * unit
	unit   = Duration(1)
)

type Duration int64

func (d Duration) String() string

func (d Duration) Hours() float64
func (d Duration) Minutes() float64
func (d Duration) Seconds() float64
func (d Duration) Milliseconds() int64
func (d Duration) Microseconds() int64
func (d Duration) Nanoseconds() int64

func (d Duration) Truncate(to Duration) Duration
func (d Duration) Round(to Duration) Duration
func (d Duration) Abs() Duration
