package openapi

// fixedPaths returns the paths that don't depend on the model.
func fixedPaths() object {
	return object{
		"/v1/model":        modelPath(),
		"/v1/services":     object{"get": asked("getServices", "The services, their parameters and paths", nil)},
		"/v1/check":        object{"post": sent("checkModel", "Checks a model, and keeps it to be tried", modelBody())},
		"/v1/tables":       object{"get": asked("getTables", "What is found of the tables", []object{ofModel()})},
		"/v1/coverage":     object{"post": covering()},
		"/v1/trial":        object{"post": trying()},
		"/v1/releases":     object{"get": asked("getReleases", "The releases of the folder; active is the one in force", nil)},
		"/healthz":         object{"get": open("getHealth", "Whether the process is alive", "application/json")},
		"/readyz":          object{"get": open("getReady", "Whether requests are best sent here; 503 where not", "application/json")},
		"/metrics":         object{"get": open("getMetrics", "Metrics as Prometheus reads them", "text/plain")},
		"/openapi.json":    object{"get": open("getOpenAPI", "This document", "application/json")},
		"/problems/":       object{"get": open("getProblems", "The types of problems", "text/plain")},
		"/problems/{word}": object{"get": problemPage()},
		"/":                object{"get": open("getPage", "A page for people", "text/html")},
	}
}

// flag returns a query parameter that is true or false.
func flag(name, said string) object {
	return object{"name": name, "in": "query", "schema": object{"type": "boolean"}, "description": said}
}

func word(name, said string) object {
	return object{"name": name, "in": "query", "schema": object{"type": "string"}, "description": said}
}

func ofModel() object {
	return object{"name": "model", "in": "query", "schema": object{"type": "string"},
		"description": "The SHA-256 of a model that was checked; the one in force where it is missing"}
}

func content(kind string, schema object) object { return object{kind: object{"schema": schema}} }

func anyObject() object { return object{"type": "object"} }

func refusal() object {
	return object{"description": "A problem", "content": content("application/problem+json", object{"$ref": "#/components/schemas/Problem"})}
}

func found(said string) object {
	return object{"description": said, "content": content("application/json", anyObject())}
}

// asked returns a path that returns an object.
func asked(id, said string, parameters []object) object {
	made := object{"operationId": id, "summary": said, "responses": object{"200": found(said), "default": refusal()}}
	if len(parameters) > 0 {
		made["parameters"] = parameters
	}
	return made
}

// sent returns a path that takes a body and returns an object.
func sent(id, said string, body object, parameters ...object) object {
	made := asked(id, said, parameters)
	made["requestBody"] = body
	return made
}

// open returns a path that needs no token.
func open(id, said, kind string) object {
	schema := object{"type": "string"}
	if kind == "application/json" {
		schema = anyObject()
	}
	return object{"operationId": id, "summary": said, "security": []object{}, "responses": object{
		"200":     object{"description": said, "content": content(kind, schema)},
		"default": object{"description": "It is not so"},
	}}
}

func problemPage() object {
	made := open("getProblem", "About a type of problem", "text/plain")
	made["parameters"] = []object{{"name": "word", "in": "path", "required": true, "schema": object{"type": "string"}}}
	return made
}

func modelBody() object {
	return object{"required": true, "content": object{
		"application/json": object{"schema": anyObject()},
		"application/xml":  object{"schema": object{"type": "string"}}}}
}

func modelPath() object {
	put := sent("putModel", "Puts a model in force", modelBody(), object{"name": "If-Match", "in": "header",
		"schema": object{"type": "string"}, "description": "The SHA-256 of the model that has to be in force, in quotes"},
		word("name", "The name of the release"), word("version", "Its version; 409 if there is one of this name and version"),
		word("why", "Why it is put"))
	return object{
		"get": asked("getModel", "The model in force", []object{
			flag("text", "Its compact text alone"), flag("whole", "With its text, names, types, places and diagram")}),
		"put": put,
	}
}

func covering() object {
	lines := object{"required": true, "content": content("application/octet-stream", object{"type": "string", "format": "binary"})}
	return sent("countRules", "Counts how often each rule hit and decided over lines of requests", lines, ofModel(),
		object{"name": "service", "in": "query", "schema": object{"type": "string"}, "description": "Of lines that are inputs alone"})
}

// trying describes a trial of recorded requests with two models.
func trying() object {
	made := asked("tryModel", "Asks two models for the recorded requests, and lists those that get another answer", []object{
		{"name": "model", "in": "query", "required": true, "schema": object{"type": "string"},
			"description": "The SHA-256 of a release, or of a model that was checked"},
		word("against", "The same of the other model; the one in force where it is missing"),
		word("from", "Of answers from this time on, as 2026-11-29 or 2026-11-29T16:00"), word("to", "Of answers before this time"),
		word("client", "Of this client or token"), word("service", "Of this service"),
		word("rule", "Of answers that this rule decided: DECISION, DECISION:NUMBER or an id"),
		word("release", "Of answers of this release: NAME VERSION, or the beginning of its SHA-256"),
		{"name": "most", "in": "query", "schema": object{"type": "integer", "format": "int64", "minimum": 0},
			"description": "How many of those that differ are listed; 1,000 where it is missing"},
		flag("csv", "All that differ as CSV"),
	})
	text := object{"type": "string"}
	made["responses"] = object{"default": refusal(), "200": object{
		"description": "Lines of JSON as they are found: the models with changes; asked; a difference; at last done, or a problem",
		"content":     object{"application/x-ndjson": object{"schema": text}, "text/csv": object{"schema": text}}}}
	return made
}

// explaining describes a request for a service's explanations.
func explaining(service Service, name string, schemas object) object {
	one := object{"$ref": "#/components/schemas/" + name + "Inputs"}
	if _, is := schemas[name+"Trial"]; is {
		one = object{"$ref": "#/components/schemas/" + name + "Trial"}
	}
	return object{
		"operationId": name + "_explained",
		"summary":     "Asks the decision service " + service.Name + " how its answers come about",
		"parameters":  []object{ofModel(), flag("misses", "Adds why rules missed")},
		"requestBody": object{"required": true, "content": content("application/json",
			object{"oneOf": []object{one, {"type": "array", "maxItems": 100, "items": one}}})},
		"responses": responses(object{"$ref": "#/components/schemas/" + name + "Answer"}),
	}
}
