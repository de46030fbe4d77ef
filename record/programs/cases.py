"""Messages and collectives of mpi4py between a name that is published and one that is looked up. It needs two processes or more."""
from mpi4py import MPI

comm = MPI.COMM_WORLD
rank = comm.Get_rank()
if rank == 0:
    MPI.Publish_name("told", "port")
    comm.send("go", dest=1)
if rank == 1:
    comm.recv(source=0)
    MPI.Lookup_name("told")
    MPI.Publish_name("summed", "port")
comm.send({"rank": rank}, dest=(rank + 1) % comm.size)
comm.recv(source=(rank - 1) % comm.size)
comm.allreduce(rank)
if rank == 0:
    MPI.Lookup_name("summed")
    MPI.Publish_name("gathered", "port")
comm.barrier()
comm.allgather(rank)
if rank == 1:
    MPI.Lookup_name("gathered")
