//go:build linux

package tillermoss

import (
	"syscall"
	"unsafe"
)

const clockBootTime = 7

// now is milliseconds by CLOCK_BOOTTIME, which goes on while the machine sleeps.
func now() int64 {
	var moment syscall.Timespec
	_, _, failed := syscall.RawSyscall(syscall.SYS_CLOCK_GETTIME, clockBootTime, uintptr(unsafe.Pointer(&moment)), 0)
	if failed != 0 {
		// (a client without this clock can't keep the rule of leases)
		panic("tillermoss: no CLOCK_BOOTTIME: " + failed.Error())
	}
	return moment.Nano() / 1_000_000
}
