package web

import (
	"context"
	"net/http"
	"time"
)

const (
	drawWithin = 20 * time.Second
	mostEvents = 300 // of a picture's volume
)

// picture draws what happened to a volume last.
func (page *Page) picture(to http.ResponseWriter, request *http.Request) {
	name := request.URL.Query().Get("name")
	if page.source.Draws == "" {
		http.Error(to, "no program draws pictures here", http.StatusNotFound)
		return
	}
	if name == "" { // of all volumes it would be of all that is kept
		http.Error(to, "no volume is named", http.StatusBadRequest)
		return
	}
	ctx, cancel := context.WithTimeout(request.Context(), drawWithin)
	defer cancel()
	select {
	case page.drawing <- struct{}{}:
		defer func() { <-page.drawing }()
	case <-ctx.Done():
		http.Error(to, "too many pictures are drawn", http.StatusServiceUnavailable)
		return
	}
	schedule := page.source.History.Schedule(name, mostEvents)
	if len(schedule.Events) == 0 {
		http.Error(to, "nothing is known of it", http.StatusNotFound)
		return
	}
	drawn, err := schedule.Draw(ctx, page.source.Draws)
	if err != nil {
		http.Error(to, "the picture: "+err.Error(), http.StatusInternalServerError)
		return
	}
	to.Header().Set("Content-Type", "image/svg+xml")
	to.Header().Set("Content-Security-Policy", "default-src 'none'; style-src 'unsafe-inline'; sandbox")
	to.Write(drawn)
}
