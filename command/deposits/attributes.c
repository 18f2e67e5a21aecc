/* What deposit is measured by: reads files, whose names come from standard input, each ended by a zero byte, and writes
   each as an attribute of the root group, unsigned bytes, by HDF5's own library in its latest format.
     attributes FILE */
#include <fcntl.h>
#include <hdf5.h>
#include <stdio.h>
#include <stdlib.h>
#include <string.h>
#include <unistd.h>

static void need(int holds, const char *what) {
  if (!holds) {
    fprintf(stderr, "attributes: %s failed\n", what);
    exit(1);
  }
}

int main(int count, char **words) {
  static unsigned char bytes[65536];
  char *name = NULL;
  size_t room = 0;
  need(count == 2, "the name of a file");
  hid_t access = H5Pcreate(H5P_FILE_ACCESS);
  need(H5Pset_libver_bounds(access, H5F_LIBVER_LATEST, H5F_LIBVER_LATEST) >= 0, "H5Pset_libver_bounds");
  hid_t file = H5Fcreate(words[1], H5F_ACC_TRUNC, H5P_DEFAULT, access);
  need(file >= 0, "H5Fcreate");
  while (getdelim(&name, &room, '\0', stdin) > 0) {
    int in = open(name, O_RDONLY);
    need(in >= 0, "open");
    ssize_t length = read(in, bytes, sizeof bytes);
    need(length >= 0 && close(in) == 0, "read");
    hsize_t size = (hsize_t)length;
    hid_t space = H5Screate_simple(1, &size, NULL);
    const char *slash = strrchr(name, '/');
    hid_t made = H5Acreate2(file, slash ? slash + 1 : name, H5T_STD_U8LE, space, H5P_DEFAULT, H5P_DEFAULT);
    need(made >= 0 && H5Awrite(made, H5T_NATIVE_UCHAR, bytes) >= 0, "H5Awrite");
    need(H5Aclose(made) >= 0 && H5Sclose(space) >= 0, "H5Aclose");
  }
  free(name);
  need(H5Fclose(file) >= 0 && H5Pclose(access) >= 0, "H5Fclose");
  return 0;
}
