#define ptr _Ptr
#define array_ptr _Array_ptr
#define nt_array_ptr _Nt_array_ptr
#define checked _Checked
#define unchecked _Unchecked
#define nt_checked _Nt_checked
