from google.protobuf.internal import containers as _containers
from google.protobuf.internal import enum_type_wrapper as _enum_type_wrapper
from google.protobuf import descriptor as _descriptor
from google.protobuf import message as _message
from typing import ClassVar as _ClassVar, Iterable as _Iterable, Mapping as _Mapping, Optional as _Optional, Union as _Union

DESCRIPTOR: _descriptor.FileDescriptor

class FeedEntity(_message.Message):
    __slots__ = ["id", "is_deleted", "trip_update"]
    ID_FIELD_NUMBER: _ClassVar[int]
    IS_DELETED_FIELD_NUMBER: _ClassVar[int]
    TRIP_UPDATE_FIELD_NUMBER: _ClassVar[int]
    id: str
    is_deleted: bool
    trip_update: TripUpdate
    def __init__(self, id: _Optional[str] = ..., is_deleted: bool = ..., trip_update: _Optional[_Union[TripUpdate, _Mapping]] = ...) -> None: ...

class FeedHeader(_message.Message):
    __slots__ = ["gtfs_realtime_version", "incrementality", "timestamp"]
    class Incrementality(int, metaclass=_enum_type_wrapper.EnumTypeWrapper):
        __slots__ = []
    DIFFERENTIAL: FeedHeader.Incrementality
    FULL_DATASET: FeedHeader.Incrementality
    GTFS_REALTIME_VERSION_FIELD_NUMBER: _ClassVar[int]
    INCREMENTALITY_FIELD_NUMBER: _ClassVar[int]
    TIMESTAMP_FIELD_NUMBER: _ClassVar[int]
    gtfs_realtime_version: str
    incrementality: FeedHeader.Incrementality
    timestamp: int
    def __init__(self, gtfs_realtime_version: _Optional[str] = ..., incrementality: _Optional[_Union[FeedHeader.Incrementality, str]] = ..., timestamp: _Optional[int] = ...) -> None: ...

class FeedMessage(_message.Message):
    __slots__ = ["entity", "header"]
    ENTITY_FIELD_NUMBER: _ClassVar[int]
    HEADER_FIELD_NUMBER: _ClassVar[int]
    entity: _containers.RepeatedCompositeFieldContainer[FeedEntity]
    header: FeedHeader
    def __init__(self, header: _Optional[_Union[FeedHeader, _Mapping]] = ..., entity: _Optional[_Iterable[_Union[FeedEntity, _Mapping]]] = ...) -> None: ...

class TripDescriptor(_message.Message):
    __slots__ = ["schedule_relationship", "start_date", "start_time", "trip_id"]
    class ScheduleRelationship(int, metaclass=_enum_type_wrapper.EnumTypeWrapper):
        __slots__ = []
    ADDED: TripDescriptor.ScheduleRelationship
    CANCELED: TripDescriptor.ScheduleRelationship
    DELETED: TripDescriptor.ScheduleRelationship
    DUPLICATED: TripDescriptor.ScheduleRelationship
    REPLACEMENT: TripDescriptor.ScheduleRelationship
    SCHEDULED: TripDescriptor.ScheduleRelationship
    SCHEDULE_RELATIONSHIP_FIELD_NUMBER: _ClassVar[int]
    START_DATE_FIELD_NUMBER: _ClassVar[int]
    START_TIME_FIELD_NUMBER: _ClassVar[int]
    TRIP_ID_FIELD_NUMBER: _ClassVar[int]
    UNSCHEDULED: TripDescriptor.ScheduleRelationship
    schedule_relationship: TripDescriptor.ScheduleRelationship
    start_date: str
    start_time: str
    trip_id: str
    def __init__(self, trip_id: _Optional[str] = ..., start_time: _Optional[str] = ..., start_date: _Optional[str] = ..., schedule_relationship: _Optional[_Union[TripDescriptor.ScheduleRelationship, str]] = ...) -> None: ...

class TripUpdate(_message.Message):
    __slots__ = ["stop_time_update", "timestamp", "trip"]
    class StopTimeEvent(_message.Message):
        __slots__ = ["delay", "time"]
        DELAY_FIELD_NUMBER: _ClassVar[int]
        TIME_FIELD_NUMBER: _ClassVar[int]
        delay: int
        time: int
        def __init__(self, delay: _Optional[int] = ..., time: _Optional[int] = ...) -> None: ...
    class StopTimeUpdate(_message.Message):
        __slots__ = ["arrival", "departure", "stop_id", "stop_sequence"]
        ARRIVAL_FIELD_NUMBER: _ClassVar[int]
        DEPARTURE_FIELD_NUMBER: _ClassVar[int]
        STOP_ID_FIELD_NUMBER: _ClassVar[int]
        STOP_SEQUENCE_FIELD_NUMBER: _ClassVar[int]
        arrival: TripUpdate.StopTimeEvent
        departure: TripUpdate.StopTimeEvent
        stop_id: str
        stop_sequence: int
        def __init__(self, stop_sequence: _Optional[int] = ..., arrival: _Optional[_Union[TripUpdate.StopTimeEvent, _Mapping]] = ..., departure: _Optional[_Union[TripUpdate.StopTimeEvent, _Mapping]] = ..., stop_id: _Optional[str] = ...) -> None: ...
    STOP_TIME_UPDATE_FIELD_NUMBER: _ClassVar[int]
    TIMESTAMP_FIELD_NUMBER: _ClassVar[int]
    TRIP_FIELD_NUMBER: _ClassVar[int]
    stop_time_update: _containers.RepeatedCompositeFieldContainer[TripUpdate.StopTimeUpdate]
    timestamp: int
    trip: TripDescriptor
    def __init__(self, trip: _Optional[_Union[TripDescriptor, _Mapping]] = ..., stop_time_update: _Optional[_Iterable[_Union[TripUpdate.StopTimeUpdate, _Mapping]]] = ..., timestamp: _Optional[int] = ...) -> None: ...
