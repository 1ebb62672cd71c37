/* Instruction words in the manual's assembler notation: LD G0,1234h (direct), LD G0,1234h,G1 (indexed), LD G0,#1234h (immediate),
 * LD G0,-4,FP, LD G0,G1, LD G0,#-1 (four bits), LD G0,%G1 (the word there), LD G0,@G1 (the byte there). PC in the place
 * of G1 is the address of the following instruction. */
#ifndef VIEWER_DISASSEMBLE_H
#define VIEWER_DISASSEMBLE_H

#define MNEMONIC_BYTES 32

struct instruction {
    int words;                 /* 1 or 2; 0 if the first word is no instruction */
    char text[MNEMONIC_BYTES]; /* empty if the first word is no instruction */
};

/* The instruction of a first word and the word behind it, which is -1 if it is not known. */
struct instruction disassemble(unsigned first, long second);

#endif
