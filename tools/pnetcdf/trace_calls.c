/* The calls that define, change and wait, each between its two lines of the trace. */
#include "trace.h"
#include "trace_datasets.h"

#include <stdlib.h>
#include <string.h>

/* ---- definitions */

int ncmpi_enddef(int ncid)
{
    begin_call(ncid, "enddef");
    call_made();
    int code = REAL(enddef)(ncid);
    call_answered();
    defined_fields(ncid);
    return end_call(code);
}

int ncmpi__enddef(int ncid, MPI_Offset h_minfree, MPI_Offset v_align, MPI_Offset v_minfree, MPI_Offset r_align)
{
    begin_call(ncid, "enddef");
    number_field("h_minfree", h_minfree);
    number_field("v_align", v_align);
    number_field("v_minfree", v_minfree);
    number_field("r_align", r_align);
    call_made();
    int code = REAL(_enddef)(ncid, h_minfree, v_align, v_minfree, r_align);
    call_answered();
    defined_fields(ncid);
    return end_call(code);
}

int ncmpi_def_dim(int ncid, const char *name, MPI_Offset len, int *idp)
{
    begin_call(ncid, "def_dim");
    text_field("dim", name);
    number_field("length", len);
    call_made();
    int code = REAL(def_dim)(ncid, name, len, idp);
    if (code == NC_NOERR && idp != NULL)
        number_field("id", *idp);
    return end_call(code);
}

int ncmpi_def_var(int ncid, const char *name, nc_type xtype, int ndims, const int *dimidsp, int *varidp)
{
    begin_call(ncid, "def_var");
    text_field("variable", name);
    number_field("type", xtype);
    ids_field("over", ndims, dimidsp);
    call_made();
    int code = REAL(def_var)(ncid, name, xtype, ndims, dimidsp, varidp);
    if (code == NC_NOERR && varidp != NULL)
        number_field("id", *varidp);
    return end_call(code);
}

int ncmpi_set_fill(int ncid, int fillmode, int *old_modep)
{
    begin_call(ncid, "set_fill");
    number_field("mode", fillmode);
    call_made();
    return end_call(REAL(set_fill)(ncid, fillmode, old_modep));
}

int ncmpi_def_var_fill(int ncid, int varid, int no_fill, const void *fill_value)
{
    nc_type type = NC_NAT;
    begin_call(ncid, "def_var_fill");
    number_field("var", varid);
    number_field("no_fill", no_fill);
    number_field("own", fill_value != NULL);
    if (fill_value != NULL && ncmpi_inq_vartype(ncid, varid, &type) == NC_NOERR)
        values_field(basic_of_variable(type), 1, fill_value);
    call_made();
    return end_call(REAL(def_var_fill)(ncid, varid, no_fill, fill_value));
}

/* ---- attributes and names */

/* The values of an attribute as they stand in a dataset. */
static void *attribute_of(int ncid, int varid, const char *name, nc_type *type, MPI_Offset *length)
{
    if (ncmpi_inq_att(ncid, varid, name, type, length) != NC_NOERR)
        return NULL;
    void *values = malloc((size_t)*length * 8 + 1);
    if (values != NULL && ncmpi_get_att(ncid, varid, name, values) != NC_NOERR) {
        free(values);
        values = NULL;
    }
    return values;
}

int ncmpi_copy_att(int ncid_in, int varid_in, const char *name, int ncid_out, int varid_out)
{
    nc_type type = NC_NAT;
    MPI_Offset length = 0;
    begin_call(ncid_out, "put_att");
    void *values = line_open() ? attribute_of(ncid_in, varid_in, name, &type, &length) : NULL;
    number_field("copied", 1);
    attribute_fields(varid_out, name, type, basic_of_variable(type), length, values);
    free(values);
    call_made();
    return end_call(REAL(copy_att)(ncid_in, varid_in, name, ncid_out, varid_out));
}

int ncmpi_del_att(int ncid, int varid, const char *name)
{
    begin_call(ncid, "del_att");
    number_field("var", varid);
    text_field("attribute", name);
    call_made();
    return end_call(REAL(del_att)(ncid, varid, name));
}

int ncmpi_rename_att(int ncid, int varid, const char *name, const char *newname)
{
    begin_call(ncid, "rename_att");
    number_field("var", varid);
    text_field("attribute", name);
    text_field("new", newname);
    call_made();
    return end_call(REAL(rename_att)(ncid, varid, name, newname));
}

int ncmpi_rename_var(int ncid, int varid, const char *name)
{
    begin_call(ncid, "rename_var");
    number_field("var", varid);
    text_field("new", name);
    call_made();
    return end_call(REAL(rename_var)(ncid, varid, name));
}

int ncmpi_rename_dim(int ncid, int dimid, const char *name)
{
    begin_call(ncid, "rename_dim");
    number_field("dim", dimid);
    text_field("new", name);
    call_made();
    return end_call(REAL(rename_dim)(ncid, dimid, name));
}

/* ---- records, buffers, lengths */

int ncmpi_fill_var_rec(int ncid, int varid, MPI_Offset recno)
{
    begin_call(ncid, "fill_var_rec");
    number_field("var", varid);
    number_field("record", recno);
    call_made();
    return end_call(REAL(fill_var_rec)(ncid, varid, recno));
}

int ncmpi_buffer_attach(int ncid, MPI_Offset bufsize)
{
    begin_call(ncid, "buffer_attach");
    number_field("size", bufsize);
    call_made();
    return end_call(REAL(buffer_attach)(ncid, bufsize));
}

int ncmpi_inq_dimlen(int ncid, int dimid, MPI_Offset *lenp)
{
    begin_call(ncid, "inq_dimlen");
    number_field("dim", dimid);
    call_made();
    int code = REAL(inq_dimlen)(ncid, dimid, lenp);
    if (code == NC_NOERR && lenp != NULL)
        number_field("length", *lenp);
    return end_call(code);
}

/* A program that asks for the name alone says so by another word. */
int ncmpi_inq_dim(int ncid, int dimid, char *name, MPI_Offset *lenp)
{
    begin_call(ncid, lenp == NULL ? "inq_dimname" : "inq_dimlen");
    number_field("dim", dimid);
    call_made();
    int code = REAL(inq_dim)(ncid, dimid, name, lenp);
    if (code == NC_NOERR && lenp != NULL)
        number_field("length", *lenp);
    return end_call(code);
}

/* ---- waits */

/* The statuses of a wait, and the names of those that are codes. */
static void statuses_fields(int count, const int *statuses)
{
    bool first = true;
    ids_field("statuses", count, statuses);
    for (int i = 0; i < count && line_open(); i++) {
        if (statuses[i] == NC_NOERR)
            continue;
        say(first ? ",\"names\":{" : ",");
        say("\"%d\":\"%s\"", statuses[i], ncmpi_strerrno(statuses[i]));
        first = false;
    }
    if (!first)
        say("}");
}

static int waiting(const char *name, int ncid, int count, int *requests, int *statuses,
                   int (*real)(int, int, int *, int *))
{
    int room = count > 0 ? count : 1;
    int *named = calloc((size_t)room, sizeof *named);
    if (named == NULL)
        return NC_ENOMEM;
    if (count > 0 && requests != NULL)
        memcpy(named, requests, (size_t)count * sizeof *named);
    begin_call(ncid, name);
    number_field("count", count);
    ids_field("requests", count, count > 0 ? named : NULL);
    tell_changed(ncid, count, named);
    call_made();
    int code = real(ncid, count, requests, statuses);
    call_answered();
    if (count > 0 && statuses != NULL)
        statuses_fields(count, statuses);
    bool filled = strcmp(name, "cancel") != 0 && (code == NC_NOERR || code == NC_ERANGE);
    tell_completed(ncid, count, named, filled);
    free(named);
    return end_call(code);
}

int ncmpi_wait(int ncid, int count, int array_of_requests[], int array_of_statuses[])
{
    return waiting("wait", ncid, count, array_of_requests, array_of_statuses, REAL(wait));
}

int ncmpi_wait_all(int ncid, int count, int array_of_requests[], int array_of_statuses[])
{
    return waiting("wait_all", ncid, count, array_of_requests, array_of_statuses, REAL(wait_all));
}

int ncmpi_cancel(int ncid, int num, int *reqs, int *statuses)
{
    return waiting("cancel", ncid, num, reqs, statuses, REAL(cancel));
}
