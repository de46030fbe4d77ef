! A message between a name that is published and one that is looked up: in each of the three ways in
! which Fortran has MPI, and each time with another name.
subroutine old_way(rank)
  implicit none
  include 'mpif.h'
  integer :: rank, x, error
  character(len=MPI_MAX_PORT_NAME) :: port
  port = "port"
  x = 0
  if (rank == 0) then
    call MPI_Publish_name("old", MPI_INFO_NULL, port, error)
    call MPI_Send(x, 1, MPI_INTEGER, 1, 1, MPI_COMM_WORLD, error)
  else if (rank == 1) then
    call MPI_Recv(x, 1, MPI_INTEGER, 0, 1, MPI_COMM_WORLD, MPI_STATUS_IGNORE, error)
    call MPI_Lookup_name("old", MPI_INFO_NULL, port, error)
  end if
end subroutine

subroutine module_way(rank)
  use mpi
  implicit none
  integer :: rank, x, error, request, status(MPI_STATUS_SIZE)
  character(len=MPI_MAX_PORT_NAME) :: port
  port = "port"
  x = 0
  if (rank == 1) then
    call MPI_Publish_name("module", MPI_INFO_NULL, port, error)
    call MPI_Isend(x, 1, MPI_INTEGER, 0, 2, MPI_COMM_WORLD, request, error)
    call MPI_Wait(request, status, error)
  else if (rank == 0) then
    call MPI_Irecv(x, 1, MPI_INTEGER, 1, 2, MPI_COMM_WORLD, request, error)
    call MPI_Wait(request, status, error)
    call MPI_Lookup_name("module", MPI_INFO_NULL, port, error)
  end if
end subroutine

subroutine new_way(rank)
  use mpi_f08
  implicit none
  integer :: rank, sum, x
  character(len=MPI_MAX_PORT_NAME) :: port
  port = "port"
  x = 0
  if (rank == 0) then
    call MPI_Publish_name("newer", MPI_INFO_NULL, port)
    call MPI_Send(x, 1, MPI_INTEGER, 1, 1, MPI_COMM_WORLD)
  else if (rank == 1) then
    call MPI_Recv(x, 1, MPI_INTEGER, 0, 1, MPI_COMM_WORLD, MPI_STATUS_IGNORE)
    call MPI_Lookup_name("newer", MPI_INFO_NULL, port)
  end if
  call MPI_Barrier(MPI_COMM_WORLD)
  if (rank == 0) call MPI_Publish_name("new", MPI_INFO_NULL, port)
  call MPI_Allreduce(rank, sum, 1, MPI_INTEGER, MPI_SUM, MPI_COMM_WORLD)
  if (rank == 1) call MPI_Lookup_name("new", MPI_INFO_NULL, port)
end subroutine

program fortran
  use mpi
  implicit none
  integer :: rank, error
  call MPI_Init(error)
  call MPI_Comm_rank(MPI_COMM_WORLD, rank, error)
  call old_way(rank)
  call module_way(rank)
  call new_way(rank)
  if (rank == 0) print '(a)', "fortran done"
  call MPI_Finalize(error)
end program
