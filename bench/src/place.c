/* Moves the code that is linked after it by PLACE bytes: whether a short loop crosses a line of the processor's cache
   of decoded instructions can double its time, and says nothing about the loop. */
#define TEXT(number) #number
#define SKIP(number) ".text\n\t.skip " TEXT(number)

__asm__(SKIP(PLACE));
