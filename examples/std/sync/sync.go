package sync

type Mutex struct{ held uint64 }

func (m *Mutex) Unlock()
func (m *Mutex) TryLock() (held bool)
func (m *Mutex) Lock()
