package life

import (
	"context"
	"errors"
	"fmt"

	"tufayon/service/plugin"
	"tufayon/service/serving"
)

// ErrEnded says that no plugin is made anew, since the driver has ended.
var ErrEnded = errors.New("the driver has ended")

// A Judge says why a plugin isn't to be made anew where its record is as it is.
type Judge func(serving.View) error

// Remake has the plugin made anew of its record, a controller's by another configuration, while the store and the sockets stay, unless that is judged to be
// wrong. Calls that come meanwhile are refused by 14 `not ready`, as at a start. Where the plugin can't be made so, the one of before goes on, and it says
// why. While the driver waits to lead, it is noted alone: it counts from then on, as at a start, and isn't judged.
func (life *Life) Remake(ctx context.Context, maker plugin.Maker, judge Judge) error {
	answered := make(chan error, 1)
	select {
	case life.remakes <- remade{maker, judge, answered}:
	case <-life.ended:
		return ErrEnded
	case <-ctx.Done():
		return ctx.Err()
	}
	select {
	case err := <-answered:
		return err
	case <-life.ended: // though something hangs
		return ErrEnded
	}
}

// remake judges it twice: while calls are answered, which all go on where it is wrong, and once none are.
func (life *Life) remake(ctx context.Context, maker plugin.Maker, judge Judge) error {
	if err := maker.Check(); err != nil {
		return err
	}
	if err := judge.of(ctx, life.core); err != nil {
		return err
	}
	err := life.endCore()
	life.core = nil
	if err != nil {
		return err
	}
	before := life.driver.Maker
	life.driver.Maker = maker
	if err = life.open(ctx, judge); err == nil {
		return nil
	}
	life.driver.Maker = before
	if back := life.open(ctx, nil); back != nil {
		return fmt.Errorf("%v; and as it was: %w", err, back)
	}
	return err
}

// of judges what a core has.
func (judge Judge) of(ctx context.Context, core *serving.Core) error {
	if judge == nil {
		return nil
	}
	var why error
	if err := core.Look(ctx, func(view serving.View) { why = judge(view) }); err != nil {
		return err
	}
	return why
}
