# Fits data sets that come with R through examples/ofit.R and compares with R's own: bench/examples calls it.
#
#   Rscript bench/examples.R examples/ofit.R FOLDER
#
# For each data set it writes to FOLDER a line of sets.txt (name, order, loss, places), NAME.csv as write.csv makes it
# and NAME.sheet. The status is 1 where a fit differs from R's by more than 1e-9, or a sheet doesn't pass.

words <- commandArgs(trailingOnly = TRUE)
source(words[1])
setwd(words[2])
wrong <- 0

try_set <- function(name, group, value, theirs, order = "chain", loss = "squares", places = 2) {
  data <- data.frame(group = as.character(group), value = value)
  fit <- ofit_fit(data, order, loss, places)
  same <- isTRUE(all.equal(unname(fit$values$fit), unname(theirs), tolerance = 1e-9))
  passes <- ofit_verify(data, fit$sheet, order, loss, places) == "passes"
  write.csv(data, paste0(name, ".csv"))
  cat(fit$sheet, file = paste0(name, ".sheet"))
  cat(name, order, loss, places, file = "sets.txt", sep = "\t", append = TRUE)
  cat("\n", file = "sets.txt", append = TRUE)
  cat(name, order, loss, "from R:", if (same && passes) "as R's own\n" else "DIFFERS\n")
  wrong <<- wrong + !(same && passes)
}

# chains with several rows a group: isoreg pools ties where they stand in falling order
tied <- order(cars$speed, -cars$dist)
try_set("cars", cars$speed, cars$dist, isoreg(cars$dist[tied])$yf[!duplicated(cars$speed[tied])], places = 0)
by_dose <- ToothGrowth[order(ToothGrowth$dose), ]
try_set("ToothGrowth", by_dose$dose, by_dose$len, isoreg(tapply(by_dose$len, by_dose$dose, mean))$yf, places = 1)

# a control below treatments: the control pools with the lowest treatments while that lowers it
means <- tapply(PlantGrowth$weight, PlantGrowth$group, mean)
control <- min(cumsum(c(means[1], sort(means[-1]))) / 1:3)
try_set("PlantGrowth", PlantGrowth$group, PlantGrowth$weight, c(control, pmax(control, means[-1])), "tree:ctrl")

# falling medians: the least fit among all vectors of values that fall and cost least
levels <- split(warpbreaks$breaks, warpbreaks$tension)
vectors <- as.matrix(expand.grid(rep(list(sort(unique(warpbreaks$breaks))), 3)))
vectors <- vectors[vectors[, 1] >= vectors[, 2] & vectors[, 2] >= vectors[, 3], ]
costs <- apply(vectors, 1, function(v) sum(mapply(function(rows, fit) sum(abs(rows - fit)), levels, v)))
least <- apply(vectors[costs == min(costs), , drop = FALSE], 2, min)
try_set("warpbreaks", warpbreaks$tension, warpbreaks$breaks, least, "umbrella:L", "median", 0)

# medians with an unknown peak: the first peak of least cost among all vectors of values, and there the least fit
levels <- split(PlantGrowth$weight, PlantGrowth$group)
v <- as.matrix(expand.grid(rep(list(sort(unique(PlantGrowth$weight))), 3)))
costs <- round(apply(v, 1, function(fit) sum(mapply(function(rows, at) sum(abs(rows - at)), levels, fit))), 6)
has_peak <- list(v[, 1] >= v[, 2] & v[, 2] >= v[, 3], v[, 1] <= v[, 2] & v[, 2] >= v[, 3], v[, 1] <= v[, 2] & v[, 2] <= v[, 3])
lowest <- vapply(has_peak, function(with) min(costs[with]), 0)
peak <- which(lowest == min(lowest))[1]
theirs <- apply(v[has_peak[[peak]] & costs == min(lowest), , drop = FALSE], 2, min)
data <- data.frame(group = as.character(PlantGrowth$group), value = PlantGrowth$weight)
fit <- ofit_unimodal(data, places = 2)
same <- isTRUE(all.equal(fit$values$fit, unname(theirs), tolerance = 1e-9)) && fit$peak == names(levels)[peak]
same <- same && isTRUE(all.equal(as.numeric(fit$cost) / 100, min(lowest), tolerance = 1e-9))
passes <- ofit_verify_unimodal(data, fit$sheet, places = 2) == "passes"
write.csv(data, "peak.csv")
cat(fit$sheet, file = "peak.sheet")
cat("peak\tpeak\tmedian\t2\n", file = "sets.txt", append = TRUE)
cat("PlantGrowth with an unknown peak from R:", if (same && passes) "as R's own\n" else "DIFFERS\n")
wrong <- wrong + !(same && passes)

# a session: a row that is changed gives the fit of the changed table, under a name that needs quotes
data <- data.frame(group = c("A", "B \"x\", 1", "C"), value = c(1, 3, 2))
steps <- ofit_session(data, list(c("value", 3, 2.5), c("add", "B \"x\", 1", 4, 2), c("remove", 9), "sheet"), places = 1)
changed <- ofit_fit(data.frame(group = data$group[c(1, 2, 3, 2)], value = c(1, 3, 2.5, 4), weight = c(1, 1, 1, 2)), places = 1)
answers <- vapply(steps, function(step) step$answer, "")
told <- identical(answers, c("refitted 1 of 1", "refitted 1 of 1", "refused no row", "sheet")) &&
  paste0(steps[[4]]$text, "\n", collapse = "") == changed$sheet
cat("a session from R:", if (told) "as a fresh fit\n" else "DIFFERS\n")
wrong <- wrong + !told

# a missing value is refused with its record
refused <- tryCatch(ofit_fit(data.frame(group = airquality$Month, value = airquality$Ozone)), error = conditionMessage)
told <- refused == sprintf("ofit: data record %d: not a number", which(is.na(airquality$Ozone))[1] + 1)
cat("airquality from R:", if (told) "refused as it must be\n" else paste("DIFFERS:", refused, "\n"))
quit(status = as.integer(wrong > 0 || !told))
