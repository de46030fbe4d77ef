! A communicator that is duplicated where the stack is gone by the time it is there. Process 0
! publishes a name, all meet in the duplicate, and process 1 looks the name up: no race.
program duplicate
  use mpi_f08
  implicit none
  type(MPI_Comm) :: made
  type(MPI_Request) :: request
  integer :: rank
  character(len=MPI_MAX_PORT_NAME) :: port
  port = "port"
  call MPI_Init()
  call MPI_Comm_rank(MPI_COMM_WORLD, rank)
  call begin(made, request)
  call write_over()
  call MPI_Wait(request, MPI_STATUS_IGNORE)
  if (rank == 0) call MPI_Publish_name("port", MPI_INFO_NULL, port)
  call MPI_Barrier(made)
  if (rank == 1) call MPI_Lookup_name("port", MPI_INFO_NULL, port)
  call MPI_Comm_free(made)
  call MPI_Finalize()
contains
  subroutine begin(made, request)
    type(MPI_Comm) :: made
    type(MPI_Request) :: request
    call MPI_Comm_idup(MPI_COMM_WORLD, made, request)
  end subroutine

  subroutine write_over()
    integer :: there(2000)
    there = 77
    if (sum(there) == 3) print *, there(5)
  end subroutine
end program
