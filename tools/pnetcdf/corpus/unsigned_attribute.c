/* Right: attributes of type byte from unsigned values past 127, and a dimension that 64 bits are needed for. */
#include "../tests/test.h"

int main(int argc, char **argv)
{
    const unsigned char flags[3] = {0, 127, 255};
    int rank, ranks, ncid, dim, wide, heat;
    begin(&argc, &argv, &rank, &ranks);
    OK(ncmpi_create(MPI_COMM_WORLD, argv[1], NC_CLOBBER, MPI_INFO_NULL, &ncid));
    OK(ncmpi_def_dim(ncid, "x", ranks, &dim));
    OK(ncmpi_def_var(ncid, "heat", NC_INT, 1, &dim, &heat));
    OK(ncmpi_put_att_uchar(ncid, heat, "flags", NC_BYTE, 3, flags));
    OK(ncmpi_enddef(ncid));
    MPI_Offset start = rank;
    OK(ncmpi_put_var1_int_all(ncid, heat, &start, &rank));
    OK(ncmpi_close(ncid));
    OK(ncmpi_create(MPI_COMM_WORLD, argv[1], NC_CLOBBER | NC_64BIT_OFFSET, MPI_INFO_NULL, &ncid));
    OK(ncmpi_def_dim(ncid, "wide", (MPI_Offset)1 << 31, &wide));
    OK(ncmpi_close(ncid));
    MPI_Finalize();
    return 0;
}
