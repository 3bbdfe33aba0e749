# Calls ofit from R: ofit_fit, ofit_verify, ofit_unimodal, ofit_verify_unimodal and ofit_session. Base R alone.
#
#   source("examples/ofit.R")
#   data <- data.frame(group = c("A", "B", "C"), value = c(1, 3, 2))
#   fit <- ofit_fit(data, places = 0)
#   fit$values                                  # group, num, den (text, exact, in units of 10^-places), fit
#   ofit_verify(data, fit$sheet, places = 0)    # "passes"
#   ofit_unimodal(data, places = 0)$peak        # "B"
#   ofit_session(data, list(c("value", 3, 4), "report"), places = 0)[[1]]$answer    # "refitted 1 of 1"
#
# data has the columns group, value and, if there is one, weight; groups are numbered in the order of their first
# rows, and nothing is sorted. Values are written with all their digits and never rounded unless digits = asks for it.
# order is a word of ofit's (chain, none, umbrella:GROUP, tree:GROUP) or a data frame with the columns low and high.
# The program is the one that the environment variable OFIT names, or `ofit` on the path. What it refuses is an error
# with its message.

ofit_fit <- function(data, order = "chain", loss = "squares", places = 3, lo = NULL, hi = NULL, digits = NULL) {
  folder <- tempfile("ofit"); dir.create(folder); on.exit(unlink(folder, recursive = TRUE))
  words <- c(.ofit_written(folder, data, digits), .ofit_settings(folder, order, loss, places, lo, hi))
  sheet <- .ofit_called("fit", words)
  report <- .ofit_records(.ofit_called("report", words), 8)
  records <- .ofit_records(sheet, 4)
  values <- setNames(records[records[[1]] == "value", 2:4], c("group", "num", "den"))
  values$fit <- as.numeric(values$num) / as.numeric(values$den) / 10^places
  values$block <- as.integer(report[report[[1]] == "group", 5])
  flows <- setNames(records[records[[1]] == "flow", 2:4], c("low", "high", "amount"))
  named <- c("block", "groups", "weight", "num", "den", "cost_num", "cost_den")
  blocks <- setNames(report[report[[1]] == "block", 2:8], named)
  blocks$fit <- as.numeric(blocks$num) / as.numeric(blocks$den) / 10^places
  parts <- lapply(list(values = values, blocks = blocks, flows = flows), `rownames<-`, NULL)
  fitted <- parts$values$fit[match(.ofit_text(data[["group"]]), parts$values$group)]
  c(parts, list(fitted = fitted, sheet = paste0(sheet, "\n", collapse = "")))
}

ofit_verify <- function(data, sheet, order = "chain", loss = "squares", places = 3, lo = NULL, hi = NULL,
                        digits = NULL) {
  folder <- tempfile("ofit"); dir.create(folder); on.exit(unlink(folder, recursive = TRUE))
  words <- c(.ofit_written(folder, data, digits), .ofit_lines(folder, sheet))
  .ofit_called("verify", c(words, .ofit_settings(folder, order, loss, places, lo, hi)))
}

# medians that rise up to a peak and fall from it, the peak among all groups: the first of least cost
ofit_unimodal <- function(data, places = 3, digits = NULL) {
  folder <- tempfile("ofit"); dir.create(folder); on.exit(unlink(folder, recursive = TRUE))
  sheet <- .ofit_called("unimodal", c(.ofit_written(folder, data, digits), paste0("places=", places)))
  records <- .ofit_records(sheet, 4)
  values <- setNames(records[records[[1]] == "value", 2:3], c("group", "units"))
  values$fit <- as.numeric(values$units) / 10^places
  list(peak = records[2, 2], cost = records[2, 3], values = `rownames<-`(values, NULL),
       sheet = paste0(sheet, "\n", collapse = ""))
}

ofit_verify_unimodal <- function(data, sheet, places = 3, digits = NULL) {
  folder <- tempfile("ofit"); dir.create(folder); on.exit(unlink(folder, recursive = TRUE))
  words <- c(.ofit_written(folder, data, digits), .ofit_lines(folder, sheet))
  .ofit_called("verify-unimodal", c(words, paste0("places=", places)))
}

# edits is a list of lines such as c("value", 3, 12.5) or "report"; for each its answer, and the lines of its text
ofit_session <- function(data, edits, order = "chain", loss = "squares", places = 3, lo = NULL, hi = NULL,
                         digits = NULL) {
  folder <- tempfile("ofit"); dir.create(folder); on.exit(unlink(folder, recursive = TRUE))
  script <- vapply(edits, function(edit) paste(.ofit_quoted(.ofit_text(edit)), collapse = ","), "")
  words <- c(.ofit_written(folder, data, digits), .ofit_lines(folder, script))
  lines <- .ofit_called("session", c(words, .ofit_settings(folder, order, loss, places, lo, hi)))
  steps <- split(lines, cumsum(grepl("^line [0-9]+: ", lines)))
  lapply(unname(steps), function(step) list(answer = sub("^line [0-9]+: ", "", step[1]), text = step[-1]))
}

.ofit_text <- function(x) enc2utf8(as.character(x))

# numbers with 15 digits where these give the number back, else with 17; NA stays
.ofit_number <- function(x, digits = NULL) {
  if (!is.numeric(x)) return(.ofit_text(x))
  if (!is.null(digits)) x <- round(x, digits)
  vapply(x, function(number) {
    text <- format(number, digits = 15, scientific = FALSE)
    if (is.finite(number) && as.numeric(text) != number) text <- format(number, digits = 17, scientific = FALSE)
    text
  }, "")
}

.ofit_quoted <- function(x) sprintf('"%s"', gsub('"', '""', x, fixed = TRUE))

.ofit_put <- function(lines, file) {
  to <- base::file(file, "wb"); on.exit(close(to))
  writeLines(lines, to, useBytes = TRUE)
}

# a file of the text of a sheet, or of the lines of a script
.ofit_lines <- function(folder, lines) {
  file <- file.path(folder, "lines")
  .ofit_put(sub("\n$", "", paste(lines, collapse = "\n")), file)
  file
}

.ofit_table <- function(columns, file) {
  quoted <- lapply(columns, .ofit_quoted)
  header <- paste(names(columns), collapse = ",")
  .ofit_put(c(header, do.call(paste, c(unname(quoted), sep = ","))), file)
  file
}

.ofit_written <- function(folder, data, digits) {
  columns <- list()
  if (!is.null(data[["group"]])) columns$group <- .ofit_text(data[["group"]])
  if (!is.null(data[["value"]])) columns$value <- .ofit_number(data[["value"]], digits)
  if (!is.null(data[["weight"]])) columns$weight <- .ofit_number(data[["weight"]])
  if (anyNA(columns$group)) stop("a row without a group", call. = FALSE)
  .ofit_table(columns, file.path(folder, "data.csv"))
}

.ofit_settings <- function(folder, order, loss, places, lo, hi) {
  if (is.data.frame(order)) {
    columns <- list(low = .ofit_text(order[["low"]]), high = .ofit_text(order[["high"]]))
    order <- paste0("file:", .ofit_table(columns, file.path(folder, "order.csv")))
  }
  words <- c(paste0("order=", order), paste0("loss=", loss), paste0("places=", places))
  c(words, if (!is.null(lo)) paste0("lo=", .ofit_number(lo)), if (!is.null(hi)) paste0("hi=", .ofit_number(hi)))
}

# the lines of the output; what is refused is an error
.ofit_called <- function(command, words) {
  out <- tempfile("out"); err <- tempfile("err"); on.exit(unlink(c(out, err)))
  program <- Sys.getenv("OFIT", "ofit")
  if (!nzchar(Sys.which(program))) stop("no such program: ", program)
  status <- system2(program, shQuote(c(command, words)), stdout = out, stderr = err)
  if (status > 1) stop(paste(readLines(err, encoding = "UTF-8"), collapse = "\n"), call. = FALSE)
  readLines(out, encoding = "UTF-8")
}

# no name is read as NA, and no number as a double
.ofit_records <- function(lines, fields)
  read.csv(text = lines, header = FALSE, colClasses = rep("character", fields), na.strings = character(0),
           encoding = "UTF-8")
