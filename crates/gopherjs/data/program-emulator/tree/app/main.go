package main

import "fmt"

type flags uint8

const (
	carry flags = 1 << iota
	zero
	negative
	overflow
)

func (f flags) String() string {
	s := ""
	for i, c := range "CZNV" {
		if f&(1<<uint(i)) != 0 {
			s += string(c)
		} else {
			s += "-"
		}
	}
	return s
}

type mode func(c *cpu) *uint8

type cpu struct {
	a, x, y uint8
	sp      uint8
	pc      uint16
	flags
	mem    [1 << 12]uint8
	cycles uint64
	hooks  map[uint16]func(*cpu)
}

type instruction struct {
	name string
	mode
	exec func(c *cpu, p *uint8)
	cost uint8
}

func (c *cpu) fetch() (b uint8) {
	b = c.mem[c.pc]
	c.pc++
	return
}

func (c *cpu) set(f flags, on bool) {
	if c.flags &^= f; on {
		c.flags |= f
	}
}

func (c *cpu) nz(v uint8) uint8 {
	c.set(zero, v == 0)
	c.set(negative, v>>7 == 1)
	return v
}

func immediate(c *cpu) *uint8 { c.pc++; return &c.mem[c.pc-1] }
func absolute(c *cpu) *uint8 {
	lo, hi := c.fetch(), c.fetch()
	return &c.mem[(uint16(hi)<<8|uint16(lo))%uint16(len(c.mem))]
}
func accumulator(c *cpu) *uint8 { return &c.a }
func indexed(c *cpu) *uint8     { return &c.mem[uint16(c.fetch())+uint16(c.x)] }

func adc(c *cpu, p *uint8) {
	sum := uint16(c.a) + uint16(*p) + uint16(c.flags&carry)
	r := uint8(sum)
	c.set(carry, sum > 0xff)
	c.set(overflow, (c.a^r)&(*p^r)&0x80 != 0)
	c.a = c.nz(r)
}

func branch(f flags, want bool) func(*cpu, *uint8) {
	return func(c *cpu, p *uint8) {
		if c.flags&f != 0 == want {
			c.pc += uint16(int16(int8(*p)))
			c.cycles++
		}
	}
}

var table [256]*instruction

func def(op uint8, name string, m mode, cost uint8, exec func(*cpu, *uint8)) {
	table[op] = &instruction{name, m, exec, cost}
}

func init() {
	def(0x69, "adc", immediate, 2, adc)
	def(0x6d, "adc", absolute, 4, adc)
	def(0x75, "adc", indexed, 4, adc)
	def(0xe9, "sbc", immediate, 2, func(c *cpu, p *uint8) { v := ^*p; adc(c, &v) })
	def(0xa9, "lda", immediate, 2, func(c *cpu, p *uint8) { c.a = c.nz(*p) })
	def(0xa2, "ldx", immediate, 2, func(c *cpu, p *uint8) { c.x = c.nz(*p) })
	def(0x8d, "sta", absolute, 4, func(c *cpu, p *uint8) { *p = c.a })
	def(0x0a, "asl", accumulator, 2, func(c *cpu, p *uint8) { c.set(carry, *p&0x80 != 0); *p <<= 1; c.nz(*p) })
	def(0x2a, "rol", accumulator, 2, func(c *cpu, p *uint8) {
		old := uint8(c.flags & carry)
		c.set(carry, *p > 127)
		*p = c.nz(*p<<1 | old)
	})
	def(0xca, "dex", nil, 2, func(c *cpu, _ *uint8) { c.x--; c.nz(c.x) })
	def(0xd0, "bne", immediate, 2, branch(zero, false))
	def(0x90, "bcc", immediate, 2, branch(carry, false))
	def(0x48, "pha", nil, 3, func(c *cpu, _ *uint8) { c.mem[0x100+uint16(c.sp)] = c.a; c.sp-- })
	def(0x68, "pla", nil, 4, func(c *cpu, _ *uint8) { c.sp++; c.a = c.nz(c.mem[0x100+uint16(c.sp)]) })
}

type trap struct {
	op uint8
	at uint16
}

func (t trap) Error() string { return fmt.Sprintf("op %02x at %04x", t.op, t.at) }

func (c *cpu) run(from uint16) (err error) {
	defer func() {
		if t, ok := recover().(trap); ok && t.op != 0 {
			err = t
		}
	}()
	for c.pc = from; ; {
		at := c.pc
		if h, ok := c.hooks[at]; ok {
			h(c)
		}
		op := c.fetch()
		in := table[op]
		if in == nil {
			panic(trap{op, at})
		}
		var p *uint8
		if in.mode != nil {
			p = in.mode(c)
		}
		in.exec(c, p)
		c.cycles += uint64(in.cost)
	}
}

func main() {
	c := &cpu{sp: 0xff}
	n := 0
	c.hooks = map[uint16]func(*cpu){0x204: func(c *cpu) {
		if n++; n%3 == 0 {
			fmt.Printf("a=%02x x=%d %v cycles=%d\n", c.a, c.x, c.flags, c.cycles)
		}
	}}
	copy(c.mem[0x200:], []uint8{0xa9, 0x01, 0xa2, 0x0a, 0x69, 0x7f, 0x2a, 0x48, 0xca, 0xd0, 0xf9, 0x68, 0x8d, 0x34, 0x02, 0xe9, 0x80, 0x0a, 0x00})
	fmt.Println(c.run(0x200), c.a, c.x, c.sp, c.flags, c.cycles, c.mem[0x234], c.mem[0x1f6:0x1f9][1])
	c.mem[0x212] = 0xff
	err := c.run(0x20b)
	t, ok := err.(trap)
	fmt.Println(err, ok, t.at == 0x212, c.flags&^zero == c.flags)
	d := *c
	d.mem[0] = 9
	d.run(0x210)
	fmt.Println(c.mem[0], d.mem[0], c.a, d.a, d.flags, c.pc == d.pc, len(d.mem), table[0] == nil, table[0x69].name)
}
