// Arduino's serial buffer: the interrupt of a byte that came, and read(). Its constructor doesn't run, so the addresses of its
// ports are 0, where each byte that comes is put, without the bit that says of a wrong parity. The buffer isn't volatile as the
// indices are, and gcc stores the index before the byte: right for an interrupt, not between two harts.
// package: arduino-core-avr
// queue: head=room.serial._rx_buffer_head,tail=room.serial._rx_buffer_tail,slots=room.serial._rx_buffer,size=16,width=1,bytes=1,index=wrapping
// flags: -D_GNU_SOURCE -DARDUINO=10819 -Iout/shims/avr -isystem out/usr/share/arduino/hardware/arduino/avr/cores/arduino
// flags: -isystem out/usr/share/arduino/hardware/arduino/avr/variants/standard
// clang: -fstandalone-debug
// answer: gcc 8, clang 10
#include <stddef.h>
#include <HardwareSerial.cpp>

[[clang::no_destroy]] static union Room {
  constexpr Room() : none() {}
  ~Room() {}
  char none;
  HardwareSerial serial;
} room;
volatile int got;

extern "C" void P0() {
  volatile unsigned char *port = nullptr;
  __asm__("" : "+r"(port));
  for (unsigned char n = 1;; n = n % 3 + 1) {
    *port = n;
    room.serial._rx_complete_irq();
  }
}

extern "C" void P1() {
  for (int one;;)
    if ((one = room.serial.HardwareSerial::read()) >= 0)
      got = one;
}
