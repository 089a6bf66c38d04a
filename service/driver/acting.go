package driver

import (
	"context"
	"crypto/sha256"
	"errors"

	"google.golang.org/grpc/codes"
	"google.golang.org/grpc/status"

	"tufayon/service/frames"
	"tufayon/service/hooks"
	"tufayon/service/serving"
)

// had says whether the ledger has what a call undoes: of nothing else anything is undone.
type had func(serving.Known) (bool, error)

// always is of calls that do something.
func always(serving.Known) (bool, error) { return true, nil }

// asking makes the request of a call, whose deed is done if the ledger had what it undoes, and if anything is to be done at all.
func asking(does hooks.Hooks, body frames.Body, deed hooks.Deed, had had) serving.Request {
	request := serving.Request{Body: body, Judge: func(serving.Known) error { return nil }}
	if does == nil {
		return request
	}
	digest := sha256.Sum256(deed.Input())
	request.Like = string(digest[:])
	request.Judge = func(serving.Known) error { return refusalOf(does.Judge(deed)) }
	request.Act = func(ctx context.Context, known serving.Known) (any, error) {
		has, err := had(known)
		if err != nil || !has {
			return nil, err
		}
		return do(ctx, does, deed, known)
	}
	return request
}

// do has a deed done, and keeps what it answers. What it fails with tells nothing private.
func do(ctx context.Context, does hooks.Hooks, deed hooks.Deed, known serving.Known) (any, error) {
	deed.Volume, deed.Number = known.Volume, known.Number
	if deed.Staging == "" {
		deed.Staging = known.Staging // of a NodeUnpublishVolume, which doesn't say it
	}
	answer, err := does.Do(ctx, deed)
	if err != nil {
		return nil, errors.New(deed.Hide(err.Error()))
	}
	return answer, nil
}

// refusalOf is the refusal of a call that its hooks can't do, whatever is there.
func refusalOf(err error) error {
	switch {
	case err == nil:
		return nil
	case errors.Is(err, hooks.ErrFlags):
		return status.Error(codes.InvalidArgument, err.Error())
	}
	return status.Error(codes.FailedPrecondition, err.Error())
}

// answerOf is what a call's deed answered, which is nothing where nothing was done.
func answerOf(acted any) hooks.Answer {
	answer, _ := acted.(hooks.Answer)
	return answer
}
