! Tells what the header of a file holds, and where its variables lie:   first FILE
program first
  use, intrinsic :: iso_c_binding
  use, intrinsic :: iso_fortran_env, only: error_unit
  implicit none
  type, bind(c) :: ncv_fault
    integer(c_int32_t) :: kind
    integer(c_int64_t) :: place, other
  end type
  type, bind(c) :: ncv_counts
    integer(c_int32_t) :: version
    integer(c_int64_t) :: length, records, dims, attrs, vars
  end type
  type, bind(c) :: ncv_var
    integer(c_int64_t) :: begin, slab, vsize, dims, attrs, name_len
    integer(c_int32_t) :: kind
    logical(c_bool) :: is_record
  end type
  interface
    integer(c_int32_t) function ncv_header_check(bytes, len, counts, fault) bind(c)
      import
      integer(c_int8_t), intent(in) :: bytes(*)
      integer(c_size_t), value :: len
      type(ncv_counts), intent(inout) :: counts
      type(ncv_fault), intent(inout) :: fault
    end function
    integer(c_int32_t) function ncv_inq_var(bytes, len, number, name, name_room, ids, ids_room, var) bind(c)
      import
      integer(c_int8_t), intent(in) :: bytes(*)
      integer(c_size_t), value :: len, name_room, ids_room
      integer(c_int64_t), value :: number
      character(kind=c_char), intent(inout) :: name(*)
      integer(c_int32_t), intent(inout) :: ids(*)
      type(ncv_var), intent(inout) :: var
    end function
  end interface
  integer(c_int8_t), allocatable :: bytes(:)
  character(len=1024) :: path
  character(len=256) :: name
  integer(c_int32_t) :: ids(32), code
  integer(c_int64_t) :: v
  integer :: file, bytes_there, status
  type(ncv_counts) :: counts
  type(ncv_fault) :: fault
  type(ncv_var) :: var

  call get_command_argument(1, path)
  open (newunit=file, file=trim(path), access='stream', form='unformatted', status='old', action='read', iostat=status)
  if (status /= 0) then
    write (error_unit, '(a)') 'usage: first FILE'
    stop 2
  end if
  inquire (unit=file, size=bytes_there)
  allocate (bytes(max(1, min(bytes_there, 2**20))))
  read (file) bytes(:min(bytes_there, 2**20))
  code = ncv_header_check(bytes, int(min(bytes_there, 2**20), c_size_t), counts, fault)
  if (code == 2) print '("fault ", i0, " at ", i0)', fault%kind, fault%place
  if (code /= 0) stop 1
  print '("CDF-", i0, ": ", i0, " dimensions, ", i0, " records")', counts%version, counts%dims, counts%records
  do v = 0, counts%vars - 1
    name = ' '
    code = ncv_inq_var(bytes, size(bytes, kind=c_size_t), v, name, 256_c_size_t, ids, 32_c_size_t, var)
    if (code /= 0) stop 1
    print '(a, ": ", i0, " bytes from ", i0)', trim(name), var%slab, var%begin
  end do
end program
