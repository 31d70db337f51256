/* Numbers of the C that is measured. It includes no header of the machine, so that the kit's own compiler can build it. */
#ifndef NUMBERS_H
#define NUMBERS_H

typedef __UINT8_TYPE__ byte_number;
typedef __UINT16_TYPE__ column_number;
typedef __UINT32_TYPE__ cell_number;
typedef __UINT64_TYPE__ set_number;
typedef __INT64_TYPE__ signed_number;
typedef __SIZE_TYPE__ place_number;

#endif
