"""The ordinary module of ordinary.txtar, as files for each mode: an old and a new tree, a folder for --std, frozen lines and exceptions, and a client."""
import os

import archives
import sources

MODES = {
    "features": "features --new new --std std",
    "frozen": "frozen --new new --std std --api api.txt",
    "judge": "judge --old old --new new --std std",
    "advise": "advise --old old --new new --std std --version v1.2.3",
    "gate": "gate --old old --new new --std std --api api.txt --except except.txt --version v1.2.3 --platforms linux-amd64,linux-386",
    "skipped": "skipped --new new --std std",
    "vet": "vet --new new --client client --std std",
    "make": "make --seed 1 --size 3",
    "features by two workers": "features --new new --std std --workers 2",
    "judge by two workers": "judge --old old --new new --std std --workers 2",
    "advise on three platforms by four workers": "advise --old old --new new --std std --version v1.2.3 --platforms linux-amd64,linux-386,windows-amd64 --workers 4",
    "make by two workers": "make --seed 1 --size 3 --workers 2",
}

CLIENT = b"""package lamp

import (
	"time"

	"example.org/meter"
	"example.org/meter/unit"
)

type steady struct{}

func (steady) Read(at time.Duration) (unit.Unit, error) {
	if at < meter.Pause {
		return 0, meter.Full
	}
	return unit.Watt, nil
}

// Light says what the meter counts, and what it doesn't.
func Light(units ...unit.Unit) (counted, other int) {
	of := meter.Open(nil, steady{})
	for _, it := range units {
		if count := of.Total(it); count > 0 {
			counted += count
		} else {
			other++
		}
	}
	return counted, other
}
"""


def module():
    """The files of the module and of the standard library, and the report of its features."""
    case = archives.cases_of(os.path.join(sources.TOP, "conformance/ordinary.txtar"))[0]
    return case.files(), case.named("output")


def files():
    """The files for all modes. Something is left out, the old tree has a constant more, and the frozen lines a function that is lost and excepted."""
    new, report = module()
    new[b"new/left.go"] = b"package meter\n\nconst share = 0.5\n"
    old = {b"old" + name[len(b"new"):]: text.replace(b"Volt\n", b"Volt\n\tOhm\n") for name, text in new.items() if name.startswith(b"new")}
    lost = b"pkg example.org/meter, func Gone()\n"
    return {**new, **old, b"api.txt": report + lost, b"except.txt": lost, b"client/lamp.go": CLIENT}
