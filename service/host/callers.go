package host

// mostIdle is how many goroutines wait for the next call.
const mostIdle = 64

// callers make calls side by side. A goroutine that has made one waits for the next: its stack is as large by then as a call needs.
type callers struct {
	next chan func()   // has no room: who waits takes it
	idle chan struct{} // has a place for each that waits
	done <-chan struct{}
}

func newCallers(done <-chan struct{}) *callers {
	return &callers{next: make(chan func()), idle: make(chan struct{}, mostIdle), done: done}
}

// make has a call made.
func (it *callers) make(call func()) {
	select {
	case it.next <- call:
	default:
		go it.work(call)
	}
}

// work makes calls, until nothing is called any more, or enough others wait.
func (it *callers) work(call func()) {
	for {
		call()
		select {
		case it.idle <- struct{}{}:
		default:
			return
		}
		select {
		case call = <-it.next:
			<-it.idle
		case <-it.done:
			return
		}
	}
}
