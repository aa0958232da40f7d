"""What is done here for each public name of `google-cloud-datastore`, and of the parts of `google.api_core` that its users import."""
from ..members import Table, refused, without_effect, works

FLOATS = "floats aren't stored: keep a whole number of the smallest unit, or a text"
PLACES = "places aren't stored: keep latitude and longitude as whole numbers, as of microdegrees, or a text"
EMBEDDED = "embedded entities and dicts aren't stored: make properties of their parts, or one text of json.dumps(value)"
_BUFFERS = "nothing is sent as protocol buffers: use keys and entities as they are"
_TIMES = "the server reads at one time, now: leave read_time out"
_METADATA = "metadata queries aren't served: the application names its kinds, namespaces and properties itself"
_EXPLAIN = "queries aren't explained: a missing index is told by FailedPrecondition, and Server(draw=...) shows a run"
_SUMS = "only count is there: fetch a projection of the property, and add its values"
_CALLS = "{get,get_multi,put,put_multi,delete,delete_multi,allocate_ids,reserve_ids,reserve_ids_multi,reserve_ids_sequential}"

TABLE = Table("google.cloud.datastore", [
    # ---- refused
    refused(FLOATS, "Client.put(value=1.5)", shown="floats as values"),
    refused(PLACES, "Client.put(value=GeoPoint)", shown="`helpers.GeoPoint` as a value"),
    refused(EMBEDDED, "Client.put(value={})", shown="an `Entity` or a dict as a value"),
    refused(_METADATA, "Client.query(kind='__{kind,namespace,property}__')",
            shown="`__kind__`, `__namespace__` and `__property__` as the kind of a query, and other kinds of that form"),
    refused("put the results of the projection into a set or a dict (where the attribute is set, it is refused too)", "Client.query(distinct_on)"),
    refused(_TIMES, "Client.{get,get_multi}(read_time)", "Query.fetch(read_time)", "aggregation.AggregationQuery.fetch(read_time)",
            "Client.transaction(read_time)", "Transaction(read_time)"),
    refused(_EXPLAIN, "Client.{query,aggregation_query}(explain_options)", "query.Iterator.explain_metrics",
            "aggregation.AggregationResultIterator.explain_metrics", "query_profile.{ExplainOptions,ExplainMetrics,ExecutionStats,PlanSummary,QueryExplainError}"),
    refused(_SUMS, "aggregation.AggregationQuery.{sum,avg}", "aggregation.{SumAggregation,AvgAggregation}"),
    refused(_BUFFERS, "Key.to_protobuf", "helpers.{entity_from_protobuf,entity_to_protobuf,key_from_protobuf,get_read_options,set_database_id_to_request}",
            "helpers.GeoPoint.to_protobuf", "query.{PropertyFilter,And,Or,BaseFilter,BaseCompositeFilter}.build_pb",
            "query.Page.raw_page", "query.Iterator.item_to_value"),
    # ---- without effect
    without_effect("there is one Datastore without HTTP and credentials: `cloud.use` or the fixture `cloud_client` says which server is meant",
                   "Client({credentials,client_info,client_options,database,_http,_use_grpc})", "Client.{base_url,database,SCOPE,close}",
                   "Client.{from_service_account_json,from_service_account_info}", "Key(database)", "{Key,Batch,Transaction}.database"),
    without_effect("keys of each project are keys of the one server", "Client(project)", "{Client,Key,Query,Batch,Transaction}.project",
                   "Key(project)", "Client.{query,key}(project)", "aggregation.AggregationQuery.project"),
    without_effect("gets are always up to date; queries are by what is applied. In a transaction it is a ValueError, as in the library",
                   "Client.{get,get_multi}(eventual)", "Query.fetch(eventual)", "aggregation.AggregationQuery.fetch(eventual)"),
    without_effect("no call is cut short: a server that doesn't answer is a ServerFailed after `Server(timeout=...)`",
                   f"Client.{_CALLS}(timeout)", "{Query,aggregation.AggregationQuery}.fetch(timeout)",
                   "{Batch,Transaction}.commit(timeout)", "Transaction.{begin,rollback}(timeout)"),
    without_effect("every key is read at once: the list stays empty", "Client.{get,get_multi}(deferred)"),
    without_effect("a transaction reads a group as of its first touch, so it doesn't matter when it begins",
                   "Client.transaction(begin_later)", "Transaction(begin_later)"),
    without_effect("an aggregation has one result", "aggregation.AggregationQuery.fetch(limit)"),
    # ---- works, with what there is to know
    works("Batch", "Client.{batch,put_multi,delete_multi}", told="each write is a commit of its own"),
    works("Batch.mutations", "Transaction.mutations", told="a list of the operation and the key of each write"),
    works("Transaction", "Client.transaction", "Transaction.{begin,commit,rollback,put,delete,current,id,namespace}",
          told="touches at most 25 groups, each of which it reads as of its first touch; its own writes aren't seen in it"),
    works("Client.transaction(read_only)", "Transaction(read_only)",
          told="ends by a rollback, which is never refused; a read of a further group is `Aborted` where one that it read was written meanwhile"),
    works("query.{And,Or}", "query.{And,Or,BaseCompositeFilter}.{filters,operation}", "query.{BaseFilter,BaseCompositeFilter}",
          told="stand with `IN`, `NOT_IN` and `!=` for at most 30 queries; beside any of these but `And` there are no cursors"),
    works("query.Iterator.pages", told="one page, with all results up to the limit"),
    works("query.Iterator.next_page_token", told="None where nothing is left behind the limit"),
    works("aggregation.AggregationQuery.count", "aggregation.CountAggregation", told="counts what the query finds"),
    works("Client.{reserve_ids,reserve_ids_multi,reserve_ids_sequential}", told="no put draws ids up to the greatest of them"),
    works("helpers.GeoPoint", "helpers.GeoPoint.{latitude,longitude}", told="can be made; a put refuses it"),
    works("Key.{to_legacy_urlsafe,from_legacy_urlsafe}", "Key.to_legacy_urlsafe(location_prefix)", told="as App Engine writes keys in URLs"),
    # ---- works
    works("__version__", "Client", "Client.{allocate_ids,aggregation_query,current_batch,current_transaction,delete,entity,get,get_multi,key,"
          "namespace,put,query}", "Client(namespace)", "Client.{get,get_multi}({missing,transaction})", f"Client.{_CALLS}(retry)",
          "Client.entity({key,exclude_from_indexes})", "Client.key({parent,namespace})"),
    works("Client.query({kind,namespace,ancestor,filters,projection,order})"),
    works("Key", "Key.{completed_key,flat_path,id,id_or_name,is_partial,kind,name,namespace,parent,path}", "Key({parent,namespace})"),
    works("Entity", "Entity.{exclude_from_indexes,id,key,kind}", "Entity({key,exclude_from_indexes})"),
    works("Batch.{begin,commit,current,delete,namespace,put,rollback}", "{Batch,Transaction}.commit(retry)", "Transaction.{begin,rollback}(retry)"),
    works("Query", "Query.{OPERATORS,add_filter,ancestor,distinct_on,fetch,filters,key_filter,keys_only,kind,namespace,order,projection}",
          "Query.add_filter(filter)", "Query.fetch({client,limit,offset,start_cursor,end_cursor,retry})", "Query.key_filter(operator)"),
    works("{aggregation,helpers,query}", "query.{KEY_PROPERTY_NAME,Query,Iterator,PropertyFilter}",
          "query.PropertyFilter.{property_name,operator,value}", "query.Iterator.{client,max_results,num_results,page_number}",
          "query.Page", "query.Page.{num_items,remaining}"),
    works("aggregation.{AggregationQuery,AggregationResult,AggregationResultIterator,BaseAggregation}",
          "aggregation.AggregationQuery.{add_aggregation,add_aggregations,fetch,namespace}", "aggregation.AggregationQuery.count(alias)",
          "aggregation.AggregationQuery.fetch({client,retry})", "aggregation.AggregationResult.{alias,value}",
          "aggregation.{BaseAggregation,CountAggregation}.alias"),
])

API_CORE = Table("google.api_core", [
    refused("nothing is asynchronous or a stream here: use Retry", "retry.{AsyncRetry,AsyncStreamingRetry,StreamingRetry,retry_target_async,"
            "retry_target_stream}"),
    refused("a RetryError comes where the time is over, and for no other reason", "retry.RetryFailureReason"),
    refused("there are no answers of HTTP or gRPC: errors come from refusals of the server",
            "exceptions.{format_http_response_error,from_http_response,from_grpc_error}"),
    without_effect("there are no credentials, and no connection that has options",
                   "client_options.{ClientOptions,from_dict}", "gapic_v1.client_info.ClientInfo"),
    works("retry.Retry", "retry.Retry.{deadline,timeout,with_deadline,with_delay,with_predicate,with_timeout}",
          "retry.Retry({predicate,initial,maximum,multiplier,timeout,deadline,on_error})",
          "retry.{build_retry_error,exponential_sleep_generator,if_exception_type,if_transient_error,retry_target}"),
    works("exceptions.{Aborted,AlreadyExists,AsyncRestUnsupportedParameterError,BadGateway,BadRequest,Cancelled,ClientError,Conflict,DataLoss,"
          "DeadlineExceeded,DuplicateCredentialArgs,FailedPrecondition,Forbidden,GatewayTimeout,GoogleAPICallError,GoogleAPIError,"
          "InternalServerError,InvalidArgument,LengthRequired,MethodNotAllowed,MethodNotImplemented,MovedPermanently,NotFound,NotModified,"
          "OutOfRange,PermissionDenied,PreconditionFailed,Redirection,RequestRangeNotSatisfiable,ResourceExhausted,ResumeIncomplete,RetryError,"
          "ServerError,ServiceUnavailable,TemporaryRedirect,TooManyRequests,Unauthenticated,Unauthorized,Unknown}"),
    works("exceptions.RetryError.cause", "exceptions.{exception_class_for_grpc_status,exception_class_for_http_status,from_grpc_status,from_http_status}"),
    works("exceptions.GoogleAPICallError.{code,details,domain,errors,grpc_status_code,message,metadata,reason,response}",
          told="a refusal of the server is the exception's `refusal`"),
])
