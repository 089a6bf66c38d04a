package translate

import "reflect"

// unknownFields is the field of each generated message that has the bytes of fields which the proto hasn't.
const unknownFields = "XXX_unrecognized"

// Known refuses a request that has, at any depth, a field that the proto hasn't: what it asks for would be dropped in silence.
func Known(message any) error {
	if hasUnknown(reflect.ValueOf(message)) {
		return invalid("unknown field")
	}
	return nil
}

func hasUnknown(value reflect.Value) bool {
	switch value.Kind() {
	case reflect.Pointer, reflect.Interface:
		return !value.IsNil() && hasUnknown(value.Elem())
	case reflect.Slice:
		for at := 0; at < value.Len(); at++ {
			if hasUnknown(value.Index(at)) {
				return true
			}
		}
	case reflect.Struct:
		for at := 0; at < value.NumField(); at++ {
			if value.Type().Field(at).Name == unknownFields {
				if value.Field(at).Len() > 0 {
					return true
				}
			} else if hasUnknown(value.Field(at)) {
				return true
			}
		}
	}
	return false
}
