/* Where the program's own code stands, into which a library was loaded before it started: from `first` to `end`. Needs
   _GNU_SOURCE, <link.h> and <stdint.h>. */
static uintptr_t first, end;

/* The program itself is listed first. */
static int find_program(struct dl_phdr_info *info, size_t size, void *data)
{
    (void)size, (void)data;
    for (int i = 0; i < info->dlpi_phnum; i++)
        if (info->dlpi_phdr[i].p_type == PT_LOAD) {
            uintptr_t start = info->dlpi_addr + info->dlpi_phdr[i].p_vaddr;
            if (first == 0)
                first = start;
            end = start + info->dlpi_phdr[i].p_memsz;
        }
    return 1;
}
