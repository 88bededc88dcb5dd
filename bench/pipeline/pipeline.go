// The pipeline of `generate N`: feed 10..1 through N stages that add 1, and sum.
package main

import (
	"fmt"
	"os"
	"strconv"
	"time"
)

func main() {
	n, _ := strconv.Atoi(os.Args[1])
	begun := time.Now()
	first := make(chan int, 16)
	in := first
	for i := 0; i < n; i++ {
		out := make(chan int, 16)
		go func(in, out chan int) {
			for k := range in {
				out <- k + 1
			}
			close(out)
		}(in, out)
		in = out
	}
	go func() {
		for i := 10; i > 0; i-- {
			first <- i
		}
		close(first)
	}()
	sum := 0
	for v := range in {
		sum += v
	}
	fmt.Printf("sum %d in %d us\n", sum, time.Since(begun).Microseconds())
}
