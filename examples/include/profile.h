/* What a file of plain C needs before ccc reads it, by `cpp -include`: words that the language leaves out. */
#define const
#define volatile
#define inline
#define restrict
#define register
#define int8_t int
#define int16_t int
#define int32_t int
#define uint8_t char
#define uint16_t unsigned
#define uint32_t unsigned
#define size_t unsigned
#define bool int
#define true 1
#define false 0
