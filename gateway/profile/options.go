package profile

// Options say what is wanted from the files, and how to read them.
type Options struct {
	// Service is the name of the only service in the model: a decision service or a decision. If it is empty the model
	// has all of them. A place that can't be translated is only refused if this service needs it.
	Service string
	// Partial leaves out the services that need a place that can't be translated, and makes the others.
	Partial bool
	// FreeInputs makes an input of each undeclared name that is the whole expression of a typed column.
	FreeInputs bool
	// Clock is the time zone of today() and now(). Without one they are refused.
	Clock string
	// Offsets are the names of inputs whose times have an offset.
	Offsets []string
	// Decimals say how many decimals the numbers of inputs have; nil if not given.
	Decimals *Decimals
	// Nullable has the names of inputs, and of components as Applicant.Age, with a declared type that may still be missing or null.
	Nullable []string
	// Part is true if the files are a part of others: a name in Decimals that no input has belongs to one of those.
	Part bool
}
