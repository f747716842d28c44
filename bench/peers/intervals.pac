# An export of intervals, for binpac: one after another until the data ends. One that is cut there is thrown as out of bound.

analyzer intervals withcontext {
};

type Interval = record {
	first:  uint16;
	second: uint16;
} &let {
	used: uint16 = second - first;
} &byteorder = bigendian;

type Export = record {
	whole: Interval[] &until($input.length() == 0);
} &byteorder = bigendian;
