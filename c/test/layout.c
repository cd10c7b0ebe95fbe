/* The sizes of the records, and where their fields lie. .ci/check_c.sh compares them with those of other languages. */
#include "ndf.h"

#include <stdio.h>

#define SIZE(name, type) printf("%s %zu\n", name, sizeof(type))
#define FIELD(name, type, field) printf("%s.%s %zu %zu\n", name, #field, offsetof(type, field), sizeof(((type *)0)->field))

int main(void) {
    SIZE("Handle", ndf_handle);
    FIELD("Handle", ndf_handle, full);
    FIELD("Handle", ndf_handle, at);
    SIZE("Change", ndf_change);
    FIELD("Change", ndf_change, kind);
    FIELD("Change", ndf_change, paths);
    FIELD("Change", ndf_change, rescan);
    FIELD("Change", ndf_change, tracked);
    FIELD("Change", ndf_change, exists);
    FIELD("Change", ndf_change, tracker);
    FIELD("Change", ndf_change, moment);
    SIZE("Attributes", ndf_attributes);
    FIELD("Attributes", ndf_attributes, has_info);
    FIELD("Attributes", ndf_attributes, has_source);
    FIELD("Attributes", ndf_attributes, has_process);
    FIELD("Attributes", ndf_attributes, process);
    SIZE("Told", ndf_told);
    FIELD("Told", ndf_told, kind);
    FIELD("Told", ndf_told, process);
    FIELD("Told", ndf_told, rescan);
    FIELD("Told", ndf_told, tracked);
    FIELD("Told", ndf_told, has_info);
    FIELD("Told", ndf_told, has_source);
    FIELD("Told", ndf_told, has_process);
    FIELD("Told", ndf_told, tracker);
    FIELD("Told", ndf_told, time);
    FIELD("Told", ndf_told, paths);
    FIELD("Told", ndf_told, first);
    FIELD("Told", ndf_told, second);
    FIELD("Told", ndf_told, info);
    FIELD("Told", ndf_told, source);
    SIZE("ToldError", ndf_told_error);
    FIELD("ToldError", ndf_told_error, kind);
    FIELD("ToldError", ndf_told_error, paths);
    FIELD("ToldError", ndf_told_error, text);
    FIELD("ToldError", ndf_told_error, first);
    SIZE("ToldEntry", ndf_told_entry);
    FIELD("ToldEntry", ndf_told_entry, step);
    FIELD("ToldEntry", ndf_told_entry, exists);
    FIELD("ToldEntry", ndf_told_entry, known);
    FIELD("ToldEntry", ndf_told_entry, recursive);
    FIELD("ToldEntry", ndf_told_entry, device);
    FIELD("ToldEntry", ndf_told_entry, inode);
    FIELD("ToldEntry", ndf_told_entry, moment);
    FIELD("ToldEntry", ndf_told_entry, events);
    FIELD("ToldEntry", ndf_told_entry, errors);
    FIELD("ToldEntry", ndf_told_entry, path);
    SIZE("Number", ndf_file_number);
    FIELD("Number", ndf_file_number, known);
    FIELD("Number", ndf_file_number, device);
    FIELD("Number", ndf_file_number, inode);
    SIZE("Stands", ndf_stands);
    FIELD("Stands", ndf_stands, known);
    FIELD("Stands", ndf_stands, has_time);
    FIELD("Stands", ndf_stands, has_number);
    FIELD("Stands", ndf_stands, kind);
    FIELD("Stands", ndf_stands, device);
    FIELD("Stands", ndf_stands, length);
    FIELD("Stands", ndf_stands, modified);
    FIELD("Stands", ndf_stands, inode);
    SIZE("Counts", ndf_totals);
    FIELD("Counts", ndf_totals, taken);
    FIELD("Counts", ndf_totals, given);
    FIELD("Counts", ndf_totals, waiting);
    FIELD("Counts", ndf_totals, visited);
    FIELD("Counts", ndf_totals, latest);
    FIELD("Counts", ndf_totals, timeout);
    FIELD("Counts", ndf_totals, errors);
    FIELD("Counts", ndf_totals, numbers);
    FIELD("Counts", ndf_totals, entries);
    return 0;
}
