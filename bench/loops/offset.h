/* Puts the code of the file that includes it 16 * OFFSET bytes behind a multiple of 64: how long a short loop
   takes depends on where it lies. */
#define TEXT_OF(token) #token
#define TEXT(token) TEXT_OF(token)
__asm__(".text\n.p2align 6\n.skip 64 + 16 * " TEXT(OFFSET) "\n");
