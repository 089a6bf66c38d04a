package api

import (
	"context"
	"math"

	"google.golang.org/grpc/codes"
	"google.golang.org/grpc/status"

	"tufayon/service/api/wire"
	"tufayon/service/history"
)

// Keep has the server tell what a history keeps.
func (server *Server) Keep(kept *history.History) {
	server.mutex.Lock()
	defer server.mutex.Unlock()
	server.history = kept
}

// History tells what happened last.
func (server *Server) History(ctx context.Context, request *wire.HistoryRequest) (*wire.HistoryResponse, error) {
	if _, err := server.host(ctx); err != nil {
		return nil, err
	}
	server.mutex.RLock()
	kept := server.history
	server.mutex.RUnlock()
	if kept == nil {
		return nil, status.Error(codes.Unimplemented, "no history is kept")
	}
	most := int(request.Most)
	if most == 0 {
		most = math.MaxInt
	}
	response := &wire.HistoryResponse{}
	last, _, _ := kept.Last(request.Name, most, 0)
	for at := range last {
		it := &last[at]
		response.Events = append(response.Events, &wire.Happened{Time: it.Time, Session: it.Session, What: it.What, Name: it.Name, Text: it.Text()})
	}
	if request.Schedule {
		schedule := kept.Schedule(request.Name, int(request.Most))
		response.Schedule, response.Outcomes = string(schedule.JSON()), schedule.Outcomes
	}
	return response, nil
}
