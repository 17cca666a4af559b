// A register file behind a bus of the APB kind, as peripherals have.
//
// A transfer takes two cycles: `psel` in both, `penable` in the second, in which `prdata` and `pslverr` are valid.
// `pready` is always 1. `rst_n` is a synchronous reset, active low.
//
//   address  register   access
//   0        ID         read: 5cc00001
//   4        CONTROL    read, write; bit 0 is the output `enable`, bits 15 to 8 the output `divider`
//   8        STATUS     read; bit 0 is the input `active`, bits 31 to 16 count the writes
//   c        INTERRUPT  read; a write of 1 clears a bit; bit 0 is set where the input `trigger` is 1
//   10 - 1c  SCRATCH    read, write
//
// Every other address is answered by `pslverr`.
//
// It shows: a `switch` with labels that fall through, an enumeration, ranges of bits, and an array under an index.
#include <systemc.h>

enum Address { ID = 0, CONTROL = 4, STATUS = 8, INTERRUPT = 12, SCRATCH = 16, END = 32 };

SC_MODULE(Registers) {
  sc_in<bool> pclk, rst_n;
  sc_in<bool> psel, penable, pwrite;
  sc_in<sc_uint<8> > paddr;
  sc_in<sc_uint<32> > pwdata;
  sc_out<sc_uint<32> > prdata;
  sc_out<bool> pready, pslverr;

  sc_in<bool> active, trigger;
  sc_out<bool> enable, irq;
  sc_out<sc_uint<8> > divider;

  sc_uint<32> control;
  sc_uint<16> writes;
  bool pending;
  sc_uint<32> scratch[4];

  bool is_register(sc_uint<8> address) { return address < END && address.range(1, 0) == 0; }

  void store(sc_uint<8> address, sc_uint<32> value) {
    writes++;
    switch (address.to_uint()) {
      case ID:
      case STATUS:
        break;
      case CONTROL:
        control = value;
        break;
      case INTERRUPT:
        if (value[0])
          pending = false;
        break;
      default:
        scratch[address.range(3, 2)] = value;
    }
  }

  sc_uint<32> load(sc_uint<8> address) {
    sc_uint<32> value = 0;
    switch (address.to_uint()) {
      case ID:
        value = 0x5cc00001;
        break;
      case CONTROL:
        value = control;
        break;
      case STATUS:
        value[0] = active.read();
        value.range(31, 16) = writes;
        break;
      case INTERRUPT:
        value[0] = pending;
        break;
      default:
        value = scratch[address.range(3, 2)];
    }
    return value;
  }

  void serve() {
    control = 0;
    writes = 0;
    pending = false;
    for (int i = 0; i < 4; i++)
      scratch[i] = 0;
    prdata.write(0);
    pslverr.write(false);
    enable.write(false);
    irq.write(false);
    divider.write(0);
    wait();
    while (true) {
      // the first cycle of a transfer; what is answered stands from the second on
      bool setup = psel.read() && !penable.read();
      bool good = is_register(paddr.read());
      pslverr.write(setup && !good);
      if (setup && good) {
        if (pwrite.read())
          store(paddr.read(), pwdata.read());
        else
          prdata.write(load(paddr.read()));
      }
      // behind the write, so that an event in the cycle that clears the bit is kept
      if (trigger.read())
        pending = true;
      enable.write(control[0]);
      divider.write(control.range(15, 8));
      irq.write(pending);
      wait();
    }
  }

  void always_ready() { pready.write(true); }

  SC_CTOR(Registers) {
    SC_CTHREAD(serve, pclk.pos());
    reset_signal_is(rst_n, false);
    SC_METHOD(always_ready);
    sensitive << psel;
  }
};
