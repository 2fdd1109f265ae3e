# Reads a CSV file by the program csvload into a data frame, with the packages DBI, RSQLite and bit64.
#
#     source("csvload.R")
#     orders <- csvload("orders.csv", column_types = c(quantity = "VARCHAR"), store_rejects = TRUE)
#     attr(orders, "rejects")
#
# Options are the program's own: TRUE or FALSE, a number, a text, several as c("a", "b"), pairs as c(name = "TYPE"). Numbers come
# as integer64, truth values as logical, days as Date, times and timestamps as texts. What the program refuses ends in an error
# with its text; the environment variable CSVLOAD names the program.
# Two kinds of cells don't come as they were found, which is RSQLite's and R's own: the least number, -9223372036854775808, is NA,
# and a text ends at its first NUL. Where a rejected line isn't UTF-8, RSQLite warns of mixed types.
csvload <- function(file, ...) {
    options <- list(...)
    # What the answer is, and where it goes, isn't the caller's to choose.
    if (any(names(options) %in% c("to", "table", "output"))) stop("to, table and output are no options here", call. = FALSE)
    # Else it could be an option's name; - alone is standard input.
    if (startsWith(file, "-") && file != "-") file <- paste0("./", file)
    word <- function(name, value) {
        if (is.logical(value)) value <- ifelse(value, "true", "false")
        if (is.numeric(value)) value <- format(value, scientific = FALSE, trim = TRUE)
        if (!is.null(names(value))) value <- paste0(names(value), ":", value)
        paste0(name, "=", paste(value, collapse = ","))
    }
    words <- c("convert", path.expand(file), "to=sqlite", unlist(Map(word, names(options), options)))
    place <- tempfile(fileext = ".db")
    said <- tempfile()
    on.exit(unlink(c(place, said)))
    program <- Sys.getenv("CSVLOAD", "csvload")
    if (system2(program, shQuote(words), stdout = place, stderr = said) != 0) {
        stop(paste(readLines(said, warn = FALSE), collapse = "\n"), call. = FALSE)
    }
    database <- DBI::dbConnect(RSQLite::SQLite(), place, bigint = "integer64")
    on.exit(DBI::dbDisconnect(database), add = TRUE, after = FALSE)
    table <- DBI::dbGetQuery(database, "SELECT * FROM data")
    types <- DBI::dbGetQuery(database, "PRAGMA table_info(data)")$type
    as_type <- list(BIGINT = bit64::as.integer64, BOOLEAN = as.logical, DATE = as.Date)
    for (place in which(types %in% names(as_type))) table[[place]] <- as_type[[types[place]]](table[[place]])
    attr(table, "rejects") <- DBI::dbGetQuery(database, "SELECT * FROM reject_errors")
    table
}
