/* Harts with FIFO store buffers over one memory, for bench/find, which appends a process for each hart. HARTS, WORDS and
 * CAPACITY come from the command line. Each step is one event: an instruction, or the landing of the oldest store. */
typedef Buffer {
    byte count;
    byte place[CAPACITY];
    byte value[CAPACITY]
}
Buffer buffer[HARTS];
byte memory[WORDS];

inline store(hart, word, number) {
    d_step {
        buffer[hart].count < CAPACITY ->
        buffer[hart].place[buffer[hart].count] = word;
        buffer[hart].value[buffer[hart].count] = number;
        buffer[hart].count++
    }
}

inline look(hart, word, register, i) {
    if
    :: i < buffer[hart].count && buffer[hart].place[i] == word -> register = buffer[hart].value[i]
    :: else
    fi
}

/* of the newest pending store to the word, or of memory */
inline load(hart, word, register) {
    d_step {
        register = memory[word];
        look(hart, word, register, 0);
        look(hart, word, register, 1);
        look(hart, word, register, 2);
        look(hart, word, register, 3)
    }
}

inline shift(hart, i) {
    buffer[hart].place[i] = buffer[hart].place[i + 1];
    buffer[hart].value[i] = buffer[hart].value[i + 1]
}

proctype lands(byte hart) {
end:
    do
    :: d_step {
        buffer[hart].count > 0 ->
        memory[buffer[hart].place[0]] = buffer[hart].value[0];
        shift(hart, 0);
        shift(hart, 1);
        shift(hart, 2);
        buffer[hart].place[3] = 0;
        buffer[hart].value[3] = 0;
        buffer[hart].count--
    }
    od
}
