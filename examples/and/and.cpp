// The bitwise `&` of two bytes.
//
// It shows: the smallest design, a combinational method without a clock. Its sensitivity lists what it reads.
#include <systemc.h>
SC_MODULE(And) {
  sc_in<sc_uint<8> > a, b;
  sc_out<sc_uint<8> > y;
  void f() { y.write(a.read() & b.read()); }
  SC_CTOR(And) { SC_METHOD(f); sensitive << a << b; }
};
