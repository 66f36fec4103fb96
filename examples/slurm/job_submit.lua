-- Keeps users out of the run partition, and refuses what cannot be placed when it is submitted. Slurm loads it from beside slurm.conf
-- (JobSubmitPlugins=lua). The partitions are those of the adapter's configuration. Administrators, by user id, may move jobs: root, and the
-- user of the adapter.
local run, queues = "netrun", { net = true }
local administrators = { [0] = true }

local function refuse(text) slurm.log_user(text); return slurm.ERROR end
local function is_given(text) return text ~= nil and text ~= "" end

-- whether a list of partitions names one for which this holds
local function names(list, holds)
  for name in string.gmatch(list or "", "[^,]+") do if holds(name) then return true end end
  return false
end

-- the partitions that a job asks for, or the default one
local function partitions_of(job, partitions)
  for name, partition in pairs(partitions) do if job.partition == nil and partition.flag_default == 1 then return name end end
  return job.partition
end

function slurm_job_submit(job, partitions, user)
  local asked_for = partitions_of(job, partitions)
  if names(asked_for, function(name) return name == run end) then return refuse(run .. " is for placed jobs: submit to a queue") end
  if not names(asked_for, function(name) return queues[name] end) then return slurm.SUCCESS end
  if job.min_cpus ~= slurm.NO_VAL and job.min_cpus > 1 then return refuse("a job of " .. asked_for .. " has one processor") end
  if is_given(job.req_nodes) then return refuse("leave out --nodelist: the node is chosen by its bandwidth") end
  local asked = job.tres_per_node or ""
  if string.find(asked, "bandwidth") and not string.find(asked, "bandwidth[:=]%d+[KMG]?%f[^%w]") then return refuse("say --gres=bandwidth:MBITS") end
  return slurm.SUCCESS
end

function slurm_job_modify(job, record, partitions, user)
  if administrators[user] then return slurm.SUCCESS end
  if names(job.partition, function(name) return name == run end) then return refuse("only placed jobs move to " .. run) end
  local is_changed = job.partition ~= nil or job.req_nodes ~= nil or job.tres_per_node ~= nil
  if record.partition == run and is_changed then return refuse("the job was placed: requeue it first") end
  return slurm.SUCCESS
end

return slurm.SUCCESS
