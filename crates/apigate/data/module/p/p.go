package p

const X = 5
