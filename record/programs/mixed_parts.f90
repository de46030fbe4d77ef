! The parts of `mixed` in Fortran.
subroutine fortran_send() bind(c, name="fortran_send")
  use mpi
  integer :: x, error
  x = 1
  call MPI_Send(x, 1, MPI_INTEGER, 1, 3, MPI_COMM_WORLD, error)
end subroutine

subroutine fortran_receive() bind(c, name="fortran_receive")
  use mpi
  integer :: x, error
  call MPI_Recv(x, 1, MPI_INTEGER, 0, 3, MPI_COMM_WORLD, MPI_STATUS_IGNORE, error)
end subroutine

subroutine fortran_barrier() bind(c, name="fortran_barrier")
  use mpi
  integer :: error
  call MPI_Barrier(MPI_COMM_WORLD, error)
end subroutine
