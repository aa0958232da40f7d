"""The public members of ndb, and what is done for each: see `torfyllan.members`."""
import sys
from typing import Any, Callable

from ..members import Table, refused, without_effect, works

_ONE = "Model.{put,put_async,get_by_id,get_by_id_async,get_or_insert,get_or_insert_async}"
_KEYS = "Key.{get,get_async,delete,delete_async}"
_MULTI = "{get_multi,get_multi_async,put_multi,put_multi_async,delete_multi,delete_multi_async}"
_IDS = "Model.{allocate_ids,allocate_ids_async}"
_CONTEXT = "Context.{get,put,delete}"
_QUERY = "Query.{fetch,fetch_async,get,get_async,count,count_async,iter,map,map_async,fetch_page,fetch_page_async}"
_TRANSACTION = "{transaction,transaction_async,transactional,transactional_async,transactional_tasklet}"
_QUIET = "{use_memcache,memcache_timeout,memcache_deadline,max_memcache_items,use_global_cache,global_cache_timeout}"
_QUIET_CALL = "{deadline,timeout,read_policy,read_consistency,force_writes,on_completion,max_put_entities,max_get_keys,max_delete_keys," \
    "max_allocate_ids_keys,max_entity_groups_per_rpc,max_rpc_bytes}"
_NO_CACHE = "there is no memcache, and no cache that requests share"
_AT_ONCE = "calls run at once, and gets are always up to date"

TABLE = Table("google.appengine.ext.ndb", [
    # -- keys
    works("Key"),
    works("Key.{kind,id,string_id,integer_id,parent,root,pairs,flat,namespace,get,get_async,delete,delete_async}"),
    works("Key.{app,project,urlsafe,serialized}",
          told="keys have the form of App Engine, with APPLICATION_ID of the environment or `testbed-test`; one of another application "
          "can be read,"
               " and its entity can't"),
    works("Key({pairs,flat,parent,namespace,app,urlsafe,serialized})"),
    refused("there is no protocol buffer of the library's: use `urlsafe` or `serialized`", "Key.reference", "Key(reference)"),
    refused("`db` isn't there: give the parts of the key", "Key.{from_old_key,to_old_key}"),
    refused("use `urlsafe`, which has App Engine's form already", "Key.to_legacy_urlsafe"),
    refused("there is one database and one application: give `app=`", "Key.database", "Key({database,project})"),

    # -- models
    works("Model", "Expando", "ModelKey", "MetaModel"),
    works("Model.{key,put,put_async,populate,to_dict,query,gql,has_complete_key}"),
    works("Model.{get_by_id,get_by_id_async,get_or_insert,get_or_insert_async,allocate_ids,allocate_ids_async}"),
    works("Expando.populate"),
    works("Model({key,id,parent,namespace,app,projection})"),
    works("Model.query({ancestor,orders,namespace,projection,distinct,group_by,default_options,app,filters})"),
    works("Model.{get_by_id,get_by_id_async,get_or_insert,get_or_insert_async}({parent,namespace,app})"),
    works("Model.{allocate_ids,allocate_ids_async}({size,parent})"),
    works("Model.to_dict({include,exclude})"),
    works(_MULTI, told="take any iterable; each write of `put_multi` is a commit of its own, in a transaction all are one"),
    refused("give a size: the server draws ids from 2^52 on, and smaller ones need no reserve",
            "Model.{allocate_ids,allocate_ids_async}(max)"),
    works(f"{_ONE}(use_cache)", f"{_KEYS}(use_cache)", f"{_MULTI}(use_cache)", f"{_CONTEXT}(use_cache)"),
    works("Model.{get_or_insert,get_or_insert_async}(context_options)", "Model.{put,put_async,get_by_id,get_by_id_async}(options)",
            f"{_KEYS}(options)",
          f"{_MULTI}(options)", f"{_CONTEXT}(options)"),
    works(f"{_ONE}(use_datastore)", f"{_KEYS}(use_datastore)", f"{_MULTI}(use_datastore)", f"{_CONTEXT}(use_datastore)"),
    refused("nothing but the Datastore keeps entities: leave it out", "ContextOptions(use_datastore=False)",
            shown="`use_datastore=False`, of every call and of a policy"),
    without_effect(_NO_CACHE, *(f"{call}({_QUIET})" for call in (_ONE, _KEYS, _MULTI, _CONTEXT, _QUERY, _TRANSACTION)),
                   shown="`use_memcache=, memcache_timeout=, memcache_deadline=, max_memcache_items=, use_global_cache=, "
                   "global_cache_timeout=` of every call"),
    without_effect(_AT_ONCE, *(f"{call}({_QUIET_CALL})" for call in (_ONE, _KEYS, _MULTI, _CONTEXT, _QUERY, _TRANSACTION, _IDS)),
            f"{_TRANSACTION}(app)",
                   *(f"{call}(retries)" for call in (_ONE, _KEYS, _MULTI, _CONTEXT, _QUERY, _IDS)),
                   shown="`deadline=, timeout=, read_policy=, read_consistency=, retries=` (but of transactions), `force_writes=, "
                   "on_completion=` and the sizes (`max_put_entities=` and its kin) of every call"),
    refused("the indexes are those of the index file", "get_indexes", "get_indexes_async", "Index", "IndexState", "IndexProperty"),
    refused("the library's connection and protocol buffers aren't there: entities are put as they are", "ModelAdapter", "ModelAttribute",
            "make_connection", "AutoBatcher"),

    # -- properties
    works("Property", "Property.IN"),
    works("Property({name,indexed,repeated,required,default,choices,validator,verbose_name,write_empty_list})"),
    works("{IntegerProperty,BooleanProperty,StringProperty,TextProperty,CompressedTextProperty,BlobProperty,JsonProperty,PickleProperty}"),
    works("{DateProperty,DateTimeProperty,TimeProperty,KeyProperty,ComputedProperty,GenericProperty}"),
    works("{TextProperty,BlobProperty,JsonProperty,PickleProperty,LocalStructuredProperty}(compressed)", "JsonProperty(json_type)"),
    works("{DateProperty,DateTimeProperty,TimeProperty}({auto_now,auto_now_add})", "KeyProperty(kind)",
            "LocalStructuredProperty(keep_keys)"),
    works("StructuredProperty", "StructuredProperty.IN",
          told="stored part by part; a repeated one is compared with a whole element too, which the façade looks for in what the query "
          "finds"),
    works("LocalStructuredProperty", told="stored as one value"),
    works("FloatProperty", "GeoPtProperty", "GeoPt", "GeoPt.{lat,lon}", "UserProperty", "BlobKeyProperty", "BlobKey",
          told="a class may have them, and an unset one stores None; a put or a comparison with a value is a `NotStoredError`, which "
          "says what to store"),
    without_effect("nobody is signed in", "UserProperty({auto_current_user,auto_current_user_add})"),
    refused("times are of UTC and without a zone, as of App Engine", "DateTimeProperty(tzinfo)"),
    refused("only a declared TextProperty or BlobProperty is compressed", "GenericProperty(compressed)"),
    refused("there are no users: keep the user's id in a StringProperty", "User", "UserNotFoundError"),

    # -- errors
    works("{KindError,InvalidPropertyError,BadProjectionError,UnprojectedPropertyError,ReadonlyPropertyError,ComputedPropertyError,"
            "Rollback}"),
    works("datastore_errors.{Error,BadValueError,BadPropertyError,BadRequestError,BadArgumentError,BadFilterError,BadQueryError,"
            "BadKeyError}"),
    works("datastore_errors.{EntityNotFoundError,TransactionFailedError,InternalError}"),
    works("datastore_errors.NeedIndexError", told="the text has the entry to add to index.yaml"),
    works("datastore_errors.Timeout",
            told="raised where a test withholds the reply to a commit; a server that doesn't reply in time is the driver's "
            "`ServerFailed`"),
    works("datastore_errors.{CommittedButStillApplying,ReferencePropertyResolveError}", "ContextError",
            told="can be named, and isn't raised"),

    # -- queries
    works("Query", "gql", "Cursor", "QueryIterator", "AND", "OR", "ConjunctionNode", "DisjunctionNode", "FilterNode", "FalseNode", "Node"),
    works("Query.{kind,ancestor,filters,orders,app,namespace,projection,group_by,is_distinct,default_options,filter,order}"),
    works(_QUERY),
    works("Query({kind,ancestor,filters,orders,app,namespace,default_options,projection,group_by,order_by,distinct_on,offset,limit,"
            "keys_only})"),
    without_effect("there is one project", "Query(project)"),
    works(f"{_QUERY}({{keys_only,projection,offset,limit,start_cursor,end_cursor,produce_cursors,options,use_cache,use_datastore}})"),
    works("Query.{map,map_async}(merge_future)"),
    without_effect("all results come at once", f"{_QUERY}({{batch_size,prefetch_size,hint}})",
            shown="`batch_size=, prefetch_size=, hint=` of every call of a query"),
    refused("the callback is given one result after another", "Query.{map,map_async}(pass_batch_into_callback)"),
    refused("bind arguments where the query is made, or by `gql(...).bind`", "Query.{analyze,bind}", "Parameter", "ParameterNode",
            "ParameterizedThing",
            "ParameterizedFunction"),
    refused("results are a list, or an iterator", "Query.run_to_queue"),
    refused("write a comparison, or sieve the results that are fetched", "PostFilterNode", "RepeatedStructuredPropertyPredicate"),
    refused("metadata queries find nothing here: name the kinds, namespaces and properties that the application has",
            "Query(kind='__kind__')",
            shown="`__kind__`, `__namespace__`, `__property__` and other kinds of that form, of a query and in GQL"),
    works("QueryIterator.{has_next,has_next_async,probably_has_next,next,cursor_before,cursor_after}"),
    refused("the indexes are those of the index file", "QueryIterator.index_list"),
    works("Cursor.{urlsafe,to_websafe_string,from_websafe_string}", "Cursor(urlsafe)",
          told="not beside `IN` of several values, `!=` and `OR`: read these by offset and limit"),
    refused("a cursor is a place of the query that gave it: use its `urlsafe`", "Cursor.{advance,reversed,to_bytes,from_bytes}",
            "Cursor({_cursor,_cursor_bytes})"),
    works("GqlQuery", "GqlQuery.bind",
            told="a statement is read as a query of these parts; an argument behind IN may be a list"),
    refused("the server stores no users and places", "gql({USER,GEOPT})", shown="`USER(...)` and `GEOPT(...)` in GQL"),

    # -- options
    works("ContextOptions", "QueryOptions", "TransactionOptions", "EVENTUAL_CONSISTENCY", "STRONG_CONSISTENCY"),
    works("ContextOptions.{STRONG_CONSISTENCY,EVENTUAL_CONSISTENCY,APPLY_ALL_JOBS_CONSISTENCY,merge}"),
    works("QueryOptions.{ORDER_FIRST,ANCESTOR_FIRST,FILTER_FIRST}", "TransactionOptions.{NESTED,MANDATORY,ALLOWED,INDEPENDENT}"),

    # -- transactions
    works(_TRANSACTION, "in_transaction", "non_transactional", f"{_TRANSACTION}({{xg,retries,options}})",
            "non_transactional(allow_existing)"),
    refused("read in it and write nothing: over one group it ends by a rollback, and never fails", f"{_TRANSACTION}(read_only)"),
    works(f"{_TRANSACTION}({{propagation,join}})", f"{_TRANSACTION}({{use_cache,use_datastore}})"),

    # -- contexts
    works("Context", "get_context", "set_context", "make_context", "make_default_context"),
    works("Context.{get_cache_policy,set_cache_policy,default_cache_policy,clear_cache,in_transaction,call_on_commit}"),
    works("Context.{get,put,delete,transaction,map_query,iter_query,flush}"),
    works("Context.{get_datastore_policy,set_datastore_policy,default_datastore_policy}",
          told="an operation of a key for which the policy says False is refused"),
    without_effect(_NO_CACHE, "Context.{get,set,default}_{memcache_policy,memcache_timeout_policy}",
                   "Context.{get,set}_{global_cache_policy,global_cache_timeout_policy}"),
    refused(_NO_CACHE, "Context.memcache_{get,gets,set,add,replace,cas,delete,incr,decr}",
            shown="`memcache_get` and its kin, of `Context`"),
    refused("no service but the Datastore is there: call it by what the application has for it", "Context.urlfetch"),
    refused("the indexes are those of the index file", "Context.get_indexes"),
    refused("ask the class: Model.allocate_ids(size)", "Context.allocate_ids"),
    refused("a context is over the client of the block", "make_context({conn,config})"),

    # -- tasklets
    works("tasklet", "synctasklet", "toplevel", "Return", "get_return_value",
            told="a tasklet runs when it is called, as far as what it waits for is done"),
    works("Future", "MultiFuture", "QueueFuture", "SerialQueueFuture", "ReducingFuture"),
    works("Future.{get_result,check_success,get_exception,get_traceback,set_result,set_exception,done,wait,wait_any,wait_all,state}"),
    works("Future.{add_callback,add_immediate_callback,add_done_callback,result,exception,running,cancelled,IDLE,RUNNING,FINISHING}"),
    works("MultiFuture.{add_dependent,putq,complete}", "QueueFuture.{add_dependent,putq,complete,getq}"),
    without_effect("nothing waits, since nothing else runs meanwhile", "sleep"),
    without_effect("no exception of a tasklet is logged", "add_flow_exception"),

    # -- modules beside it
    refused("it is a part of the library that nothing but the library calls", "utils", "eventloop", "google_imports", "prospective_search"),
    refused("make each request one of ndb by `ndb.wsgi_middleware(application)`", "django_middleware"),
    works("polymodel", "polymodel.PolyModel", "polymodel.PolyModel.class_", "query", "tasklets"),
    works("namespace_manager.{get_namespace,set_namespace,validate_namespace}",
            told="each block of `ndb.use` begins with the empty namespace"),
    without_effect("it is the empty one", "namespace_manager.google_apps_namespace"),
    works("blobstore.{BlobKey,BlobKeyProperty}", told="can be named, and are refused at the put"),
    refused("there is no Blobstore",
            "blobstore.{BlobInfo,BlobReader,BlobMigrationRecord,fetch_data,fetch_data_async,create_upload_url,create_upload_url_async}",
            "blobstore.{delete,delete_async,delete_multi,delete_multi_async,get,get_async,get_multi,get_multi_async,parse_blob_info}",
            shown="every other name of `blobstore`"),
    refused("metadata queries find nothing here: name the kinds, namespaces and properties that the application has",
            "metadata.{Namespace,Kind,Property,EntityGroup,get_namespaces,get_kinds,get_properties_of_kind,get_representations_of_kind,"
            "get_entity_group_version}",
            shown="every name of `metadata`"),
    refused("there are no statistics: count what a query finds",
            "stats.{BaseStatistic,BaseKindStatistic,GlobalStat,NamespaceStat,KindStat,KindRootEntityStat,KindNonRootEntityStat,"
            "PropertyTypeStat}",
            "stats.{KindPropertyTypeStat,KindPropertyNameStat,KindPropertyNamePropertyTypeStat,KindCompositeIndexStat,"
            "NamespaceGlobalStat,NamespaceKindStat}",
            "stats.{NamespaceKindRootEntityStat,NamespaceKindNonRootEntityStat,NamespacePropertyTypeStat,NamespaceKindPropertyTypeStat}",
            "stats.{NamespaceKindPropertyNameStat,NamespaceKindPropertyNamePropertyTypeStat,NamespaceKindCompositeIndexStat}",
            shown="every name of `stats`"),
    refused("ProtoRPC isn't there: keep the message's bytes in a BlobProperty", "msgprop.{EnumProperty,MessageProperty}"),

    # -- the testbed
    works("testbed.Testbed", "testbed.Testbed.{activate,deactivate,setup_env,init_datastore_v3_stub,init_all_stubs}",
          told="each `init_datastore_v3_stub` gives a server without entities; a missing index is told, and `index.yaml` is read"),
    works("testbed.Testbed.init_datastore_v3_stub({enable,consistency_policy,root_path})"),
    without_effect("ids are drawn by the server", "testbed.Testbed.init_datastore_v3_stub(auto_id_policy)"),
    without_effect("a test bed keeps nothing: serve a kept file by Server(kept=...)", "testbed.Testbed.init_datastore_v3_stub({use_sqlite,save_changes})"),
    without_effect("a missing index is always told", "testbed.Testbed.init_datastore_v3_stub(require_indexes)"),
    refused("a test bed keeps nothing: serve a kept file by Server(kept=...)", "testbed.Testbed.init_datastore_v3_stub(datastore_file)"),
    without_effect("no other service is there: give the application what it needs of it",
                   "testbed.Testbed.init_{app_identity,blobstore,capability,channel,files,images,logservice,mail,memcache,modules}_stub",
                   "testbed.Testbed.init_{search,taskqueue,urlfetch,user,xmpp}_stub",
                   shown="the other `init_..._stub` of `testbed.Testbed`"),
    refused("there are no stubs: ask the server by `testbed.client`", "testbed.Testbed.{get_stub,init_stub}"),
    works("datastore_stub_util.{PseudoRandomHRConsistencyPolicy,MasterSlaveConsistencyPolicy,BaseHighReplicationConsistencyPolicy,"
            "TimeBasedHRConsistencyPolicy}",
          "datastore_stub_util.PseudoRandomHRConsistencyPolicy.{SetProbability,SetSeed}",
          told="a write is applied at once with that probability, and else by a read that is up to date or by `settle`"),
    refused("the server isn't the SDK's stub",
            "datastore_stub_util.{BaseDatastore,BaseTransactionManager,BaseIndexManager,DatastoreStub,EntityRecord}"),

    # -- google.cloud.ndb
    works("EVENTUAL", "STRONG", "PolyModel", "wait_all", "wait_any", "Context.get_namespace"),
    refused("there is no Blobstore", "BlobInfo"),
    works("Client", "Client.context", "Client({project,namespace})", "Client.context({namespace,cache_policy})", "exceptions"),
    without_effect("the server asks for none", "Client({credentials,client_options})"),
    refused("there is one database", "Client(database)"),
    without_effect(_NO_CACHE, "Client.context({global_cache,global_cache_policy,global_cache_timeout_policy})"),
    without_effect("old data isn't there", "Client.context(legacy_data)"),
    refused(_NO_CACHE, "GlobalCache", "MemcacheCache", "RedisCache"),
])


class Refusing(type):
    """The class of classes of which a refused member, asked of the class itself, tells its sentence too."""

    def __getattr__(cls, name: str) -> Any:
        for kind in cls.__mro__:
            TABLE.refuse(f"{kind.__name__}.{name}")
        raise AttributeError(f"type object {cls.__name__!r} has no attribute {name!r}")


def package_getattr(module: str) -> Callable[[str], Any]:
    """The `__getattr__` of a module of this package that has, as in App Engine, the names of its neighbours too."""

    def found(name: str) -> Any:
        if name.startswith("_"):
            raise AttributeError(f"module {module!r} has no attribute {name!r}")
        return getattr(sys.modules[__name__.rpartition(".")[0]], name)

    return found
