package os

const PathSeparator = '\\'
