"""Tests which functions of a header the recorders note, and which they count."""
import re
import shutil
import subprocess
import sys
import tempfile
import unittest
from pathlib import Path

from tests.support import TOP, Word
from tests.support.tapes import write_file


HEADER = """
extern int MPI_Known(int a);
extern int MPI_Odd(const int list[][3], MPI_Request *it,  void *f) __attribute__((deprecated("x")));
extern int MPI_Type_size(MPI_Datatype t, int *size); int MPI_Barrel(void);
extern double MPI_Wtime(void);
"""
# Functions that have a line in the table, the first three with counts of more bits.
LARGE_HEADER = """
extern int MPI_Send_c(const void *b, MPI_Count n, MPI_Datatype t, int to, int tag, MPI_Comm c);
extern int MPI_Bcast_c(void *b, MPI_Count n, MPI_Datatype t, int root, MPI_Comm c);
extern int MPI_Type_size_c(MPI_Datatype t, MPI_Count *size);
extern int MPI_Put_c(const void *b, MPI_Count n);
extern int MPI_Bcast(void *b, int n, MPI_Datatype t, int root, MPI_Comm c);
"""


# Says whose the objects at some paths are, as a number of `enum owner`.
OWNERS = b"""
#include "core/owners.h"
#include <stdio.h>
int main(int count, char **words)
{
    for (int n = 1; n < count; n++)
        printf("%d\\n", (int)find_object_owner(words[n]));
    return 0;
}
"""
OF_PROGRAM, _, _, OF_MPI, OF_PMIX, OF_SYSTEM, _ = range(7)
# Whose objects are; that of a component only where the system or MPI has it, whatever its name.
OWNER_OF = {
    "/usr/lib/x86_64-linux-gnu/libmca_common_ompio.so.41": OF_MPI,
    "/home/user/lib/libmca_common_x.so": OF_PROGRAM,
    "/home/user/openmpi/mca_io_ompio.so": OF_MPI,
    "/home/user/lib/libevent_x.so": OF_PROGRAM,
    "/opt/lib/libevent_pthreads-2.1.so.7": OF_SYSTEM,
    "/opt/lib/libevent-2.1.so.7": OF_SYSTEM,
    "/opt/pmix/pmix/mca_gds_hash.so": OF_PMIX,
    "/home/user/pmix-tests/mca_early": OF_PROGRAM,
}


class OwnersTest(unittest.TestCase):
    """record/core/owners.c says whose code an object has."""

    def test_objects(self) -> None:
        if not shutil.which("cc"):
            self.skipTest("there is no cc")
        with tempfile.TemporaryDirectory(prefix="wire-up-") as room:
            source = write_file(Path(room, "owners.c"), OWNERS)
            path = Path(room, "owners")
            sources = sorted((TOP / "record" / "core").glob("*.c"))
            flags = ["-std=gnu11", "-pthread", f"-I{TOP / 'record'}", "-ldl"]
            subprocess.run(["cc", "-o", path, source, *sources, *flags], check=True)
            ran = subprocess.run([path, *OWNER_OF], capture_output=True, text=True, check=True)
        self.assertEqual([int(word) for word in ran.stdout.split()], list(OWNER_OF.values()))


class OthersTest(unittest.TestCase):
    """record/others.py writes the functions that a recorder doesn't have, and that aren't local."""

    def write(self, program: str, header: str, table: Word) -> str:
        """What one of the programs writes for a header."""
        words: list[Word] = [sys.executable, "-B", TOP / "record" / program, "MPI", table]
        ran = subprocess.run(words, input=header, capture_output=True, text=True, check=False)
        self.assertEqual(ran.returncode, 0, ran.stderr)
        return ran.stdout

    def test_a_header(self) -> None:
        with tempfile.TemporaryDirectory(prefix="wire-up-") as room:
            table = write_file(
                Path(room, "source.c"), b"/* MPI_Odd */ int MPI_Known(int a) {}"
            )
            wrote = self.write("others.py", HEADER, table)
        pattern = r"(?m)^int (\w+)\(|result = (?:real|tool)\((.*)\);|(forget_\w+\(.*\));"
        wanted = [
            ("", "list, it, f", ""),
            ("", "", "forget_request(*it)"),
            ("PMPI_Odd", "", ""),
            ("MPI_Odd", "", ""),
            ("", "list, it, f", ""),
            ("", "", ""),
            ("PMPI_Barrel", "", ""),
            ("MPI_Barrel", "", ""),
            ("", "", ""),
        ]
        self.assertEqual(re.findall(pattern, wrote), wanted)

    def test_functions_with_large_counts(self) -> None:
        """They are noted as those with the usual counts."""
        table = TOP / "record" / "mpi.table"
        noted = self.write("wrappers.py", LARGE_HEADER, table)
        names = re.findall(r"(?m)^int (MPI_\w+)\(", noted)
        self.assertEqual(names, ["MPI_Send_c", "MPI_Bcast", "MPI_Bcast_c"])
        self.assertEqual(noted.count('begin_collective(&call, "bcast"'), 2)
        counted = self.write("others.py", LARGE_HEADER, table)
        self.assertEqual(re.findall(r"(?m)^int (MPI_\w+)\(", counted), ["MPI_Put_c"])


if __name__ == "__main__":
    unittest.main()
