/* What `check` must tell, one kind for each number; the words beside it stand in what is told. Number 0 has no table. */
#if PLANT == 0 // nothing
unsigned value(unsigned char c)
{
    return c < '0' ? 16 : c <= '9' ? c - '0' : c < 'a' ? 16 : c <= 'f' ? c - 'a' + 10 : 16;
}
#elif PLANT == 1 // 1 bytes apart
const char *digits(void)
{
    return "0123456789abcdef";
}
#elif PLANT == 2 // 1 bytes apart
const char letters[] = "ABCDEF";
#elif PLANT == 3 // 2 bytes apart
const unsigned short wide[] = {'0', '1', '2', '3', '4', '5', '6', '7', '8', '9'};
#elif PLANT == 4 // 4 bytes apart
const unsigned values[] = {10, 11, 12, 13, 14, 15};
#elif PLANT == 5 // 8 bytes apart
unsigned long written[] = {'a', 'b', 'c', 'd', 'e', 'f'};
#elif PLANT == 6 // 1 bytes apart
const unsigned char by_byte[256] = {['0'] = 0, 1, 2, 3, 4, 5, 6, 7, 8, 9, ['a'] = 10, 11, 12, 13, 14, 15};
#elif PLANT == 7 // 2 bytes apart
const char pairs[] = "000102030405060708090a0b0c0d0e0f";
#elif PLANT == 8 // two to a byte
const unsigned long nibbles = 0xfedcba9876543210;
#elif PLANT == 9 // data of no known kind
const unsigned char mixed[] = {7, 3, 9, 1, 0, 4, 8, 2, 6, 5};
#elif PLANT == 10 // in an instruction
void write_four(unsigned *out)
{
    *out = 0x33323130;
}
#elif PLANT == 11 // in an instruction
unsigned of_word(unsigned d)
{
    return 0xfedcba9876543210 >> 4 * d & 15;
}
#elif PLANT == 12 // a switch turned into data
int of_switch(int d)
{
    switch (d) {
    case 0: return 48;
    case 1: return 97;
    case 2: return 53;
    case 3: return 102;
    case 4: return 55;
    case 5: return 50;
    case 6: return 99;
    default: return 0;
    }
}
#endif
