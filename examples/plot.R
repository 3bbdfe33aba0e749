#!/usr/bin/env Rscript
# Draws a fit: the rows of a data table, the value of each group, its blocks and the bounds.
#
#   examples/plot.R DATA FIT PICTURE
#
# FIT is the output of `ofit fit` or of `ofit report` for the table DATA, PICTURE the file to write, a .pdf or .png.
# A thin line joins the groups of a block; in a sheet, which names no blocks, neighbours of equal value.

words <- commandArgs(trailingOnly = TRUE)
read_text <- function(file, ...)
  read.csv(file, colClasses = "character", na.strings = character(0), encoding = "UTF-8", ...)
data <- read_text(words[1], fileEncoding = "UTF-8-BOM")
fields <- paste0("V", 1:8)
fit <- read_text(words[2], header = FALSE, col.names = fields, fill = TRUE)
of_report <- fit$V1[1] == "ofit-report"
groups <- fit[fit$V1 == if (of_report) "group" else "value", ]
unit <- 10^-as.integer(fit$V4[1])
num <- if (of_report) groups$V6 else groups$V3
den <- if (of_report) groups$V7 else groups$V4
level <- as.numeric(num) / as.numeric(den) * unit
runs <- rle(paste(num, den))$lengths
block <- if (of_report) as.integer(groups$V5) else rep(seq_along(runs), runs)
bounds <- unlist(if (of_report) fit[1, c("V5", "V6")] else fit[2, c("V2", "V3")])
bounds <- as.numeric(bounds[bounds != "none"]) * unit

place <- match(data$group, groups$V2)
value <- as.numeric(data$value)
weight <- if (is.null(data$weight)) rep(1, nrow(data)) else as.numeric(data$weight)
blue <- "#1f77b4"
if (grepl("[.]png$", words[3])) png(words[3], 840, 504, res = 120) else pdf(words[3], 7, 4.2)
long <- sum(nchar(groups$V2)) > 60
par(mar = c(if (long) 7 else 3, 4, 3, 1), bty = "l")
plot(place, value, cex = 0.6 + 0.6 * weight / max(weight), xlim = c(0.5, nrow(groups) + 0.5), xaxt = "n", xlab = "",
     ylab = "value", ylim = range(value, level, bounds), col = "grey35")
axis(1, seq_len(nrow(groups)), groups$V2, las = if (long) 2 else 1)
abline(h = bounds, col = "grey60", lty = 2)
segments(seq_along(level) - 0.4, level, seq_along(level) + 0.4, level, lwd = 3, col = blue)
for (b in unique(block)) {
  at <- range(which(block == b))
  segments(at[1], level[at[1]], at[2], level[at[1]], col = blue)
}
shown <- c(TRUE, TRUE, length(bounds) > 0)
labels <- c("data, by weight", "fit", "bounds")[shown]
legend("top", labels, inset = -0.16, horiz = TRUE, xpd = TRUE, text.width = 1.2 * max(strwidth(labels)), bty = "n",
       pch = c(1, NA, NA)[shown], lwd = c(NA, 3, 1)[shown], lty = c(NA, 1, 2)[shown],
       col = c("grey35", blue, "grey60")[shown])
invisible(dev.off())
